// The bodies in space, by three; their names stand above, by d3.
import { select } from 'd3';
import {
  AmbientLight, BufferGeometry, CanvasTexture, Color, DoubleSide, Float32BufferAttribute, LineBasicMaterial, LineLoop, Mesh,
  MeshBasicMaterial, MeshLambertMaterial, PerspectiveCamera, PointLight, Points, PointsMaterial, RingGeometry, Scene,
  SphereGeometry, Sprite, SpriteMaterial, Vector3, WebGLRenderer,
} from 'three';
import { placed, widthOf } from './labels.js';

const STARS = 1500;
const RING = 2.2;
const ANGLE = 30;

// Distances are drawn by their cube roots, so that Mercury and Pluto have room.
function drawn({ x, y, z }) {
  const distance = Math.hypot(x, y, z);
  return new Vector3(x, z, -y).multiplyScalar(Math.cbrt(distance) / distance);
}

const sizeOf = (body) => 0.035 + 0.022 * Math.cbrt(body.radius / 1000);

function pathOf(body) {
  const geometry = new BufferGeometry().setFromPoints(body.orbit.outline(720).map(drawn));
  return new LineLoop(geometry, new LineBasicMaterial({ color: body.colour, transparent: true }));
}

function ballOf(body) {
  const ball = new Mesh(new SphereGeometry(sizeOf(body), 32, 24), new MeshLambertMaterial({ color: body.colour }));
  if (body.ring) {
    const size = sizeOf(body);
    const ring = new Mesh(new RingGeometry(1.4 * size, RING * size, 64), new MeshBasicMaterial({ color: body.colour, side: DoubleSide, transparent: true, opacity: 0.7 }));
    ring.rotation.set(Math.PI / 2 - 0.4, 0.2, 0);
    ball.add(ring);
  }
  return ball;
}

function glow() {
  const canvas = document.createElement('canvas');
  canvas.width = canvas.height = 128;
  const context = canvas.getContext('2d');
  const shade = context.createRadialGradient(64, 64, 0, 64, 64, 64);
  [[0, '#fff8e0'], [0.22, '#ffe08a'], [0.3, 'rgba(255, 176, 64, 0.45)'], [1, 'rgba(255, 150, 40, 0)']].forEach(([at, colour]) => shade.addColorStop(at, colour));
  context.fillStyle = shade;
  context.fillRect(0, 0, 128, 128);
  const sprite = new Sprite(new SpriteMaterial({ map: new CanvasTexture(canvas), depthWrite: false }));
  sprite.scale.set(1.1, 1.1, 1);
  return sprite;
}

// Stars far outside, the same at each call.
function stars() {
  const places = Array.from({ length: STARS }, (_, i) => {
    const height = 1 - (2 * i + 1) / STARS;
    const angle = (i * i * 2.399963) % (2 * Math.PI);
    const across = Math.sqrt(1 - height * height);
    return [40 * across * Math.cos(angle), 40 * height, 40 * across * Math.sin(angle)];
  });
  const geometry = new BufferGeometry();
  geometry.setAttribute('position', new Float32BufferAttribute(places.flat(), 3));
  return new Points(geometry, new PointsMaterial({ color: '#93a0bd', size: 1.4, sizeAttenuation: false }));
}

/** Fills a figure of that size, and gives what draws the bodies at a day, one of them selected. */
export function createScene(figure, { width, height }, bodies, select$) {
  const canvas = figure.append('canvas').node();
  const renderer = new WebGLRenderer({ canvas, antialias: true, preserveDrawingBuffer: true });
  renderer.setSize(width, height);
  renderer.setClearColor(new Color('#0b101c'));

  const camera = new PerspectiveCamera(ANGLE, width / height, 0.1, 100);
  camera.position.set(0, 9.6, 8.6);
  camera.lookAt(0, -0.1, 0.1);

  const scene = new Scene();
  const balls = bodies.map(ballOf);
  const paths = bodies.map(pathOf);
  scene.add(stars(), new AmbientLight('#ffffff', 0.55), new PointLight('#ffffff', 0.85), glow(), ...paths, ...balls);

  const names = figure.append('svg').attr('width', width).attr('height', height)
    .selectAll('text').data(bodies).join('text')
    .text((body) => body.name)
    .attr('fill', (body) => body.colour)
    .on('click', (body) => select$.next(body.name));
  const scale = height / (2 * Math.tan((ANGLE * Math.PI) / 360));
  const widths = names.nodes().map(widthOf);

  return (day, selected) => {
    bodies.forEach((body, i) => {
      balls[i].position.copy(drawn(body.orbit.at(day)));
      paths[i].material.opacity = body === selected ? 1 : 0.4;
    });
    renderer.render(scene, camera);
    const middles = placed(balls.map((ball, i) => {
      const { x, y } = ball.position.clone().project(camera);
      const size = (sizeOf(bodies[i]) * (bodies[i].ring ? RING : 1) * scale) / camera.position.distanceTo(ball.position);
      return { x: ((x + 1) * width) / 2, y: ((1 - y) * height) / 2, size, width: widths[i] };
    }));
    names.each(function place(body, i) {
      select(this).attr('x', middles[i].x).attr('y', middles[i].y).classed('selected', body === selected);
    });
  };
}
