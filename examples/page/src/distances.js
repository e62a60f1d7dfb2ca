// How far a body is from the Earth, in the years around a day.
import { area, axisBottom, axisLeft, line, max, range, scaleLinear, scaleUtc, utcFormat, utcYear } from 'd3';
import { dateOf } from './days.js';
import { unitOf } from './units.js';

const MARGIN = { top: 14, right: 20, bottom: 26, left: 52 };
const AROUND = 2200;

const between = (a, b) => Math.hypot(a.x - b.x, a.y - b.y, a.z - b.z);

export function createDistances(figure, { width, height }, bodies, unit) {
  const earth = bodies.find(({ name }) => name === 'Earth');
  const x = scaleUtc().range([MARGIN.left, width - MARGIN.right]);
  const y = scaleLinear().range([height - MARGIN.bottom, MARGIN.top]);
  const svg = figure.append('svg').attr('width', width).attr('height', height);
  const bottom = svg.append('g').attr('class', 'axis').attr('transform', `translate(0, ${height - MARGIN.bottom})`);
  const left = svg.append('g').attr('class', 'axis').attr('transform', `translate(${MARGIN.left}, 0)`);
  const under = svg.append('path').attr('class', 'under');
  const curve = svg.append('path').attr('class', 'curve');
  const now = svg.append('line').attr('class', 'now').attr('y1', MARGIN.top).attr('y2', height - MARGIN.bottom);
  const spot = svg.append('circle').attr('r', 5);

  return (day, selected) => {
    // The Earth itself is measured from the Sun.
    const from = (at) => (selected === earth ? { x: 0, y: 0, z: 0 } : earth.orbit.at(at));
    const distance = (at) => between(selected.orbit.at(at), from(at)) * unitOf(unit).perAU;
    const days = range(day - AROUND, day + AROUND + 1, 20);
    x.domain([dateOf(days[0]), dateOf(days[days.length - 1])]);
    y.domain([0, max(days, distance) * 1.08]);
    bottom.call(axisBottom(x).ticks(utcYear.every(2)).tickFormat(utcFormat('%Y')));
    left.call(axisLeft(y).ticks(5).tickSize(-(width - MARGIN.left - MARGIN.right)));
    under.attr('fill', selected.colour).attr('d', area().x((at) => x(dateOf(at))).y0(y(0)).y1((at) => y(distance(at)))(days));
    curve.attr('stroke', selected.colour).attr('d', line().x((at) => x(dateOf(at))).y((at) => y(distance(at)))(days));
    now.attr('x1', x(dateOf(day))).attr('x2', x(dateOf(day)));
    spot.attr('fill', selected.colour).attr('cx', x(dateOf(day))).attr('cy', y(distance(day)));
  };
}
