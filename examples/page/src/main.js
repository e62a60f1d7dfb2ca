// The Sun's planets: a scene by three, two charts by d3, and streams of rxjs that say what they show.
import { select, utcFormat } from 'd3';
import { BehaviorSubject, combineLatest } from 'rxjs';
import { map } from 'rxjs/operators';
import known from './bodies.json';
import { Body } from './body.js';
import { dateOf, daysOf } from './days.js';
import { createDistances } from './distances.js';
import { createLaws } from './laws.js';
import { createScene } from './scene.js';
import { unitOf } from './units.js';
import visitors from './visitors.json';

const asked = new URLSearchParams(location.search);
const unit = asked.get('unit') ?? 'AU';

/** All bodies that are drawn. */
export const bodies = [...known, ...(asked.has('visitors') ? visitors : [])].map((data) => new Body(data));

/** The name of the body that is selected. */
export const selected$ = new BehaviorSubject(asked.get('body') ?? 'Mars');

const page = select('#page');
const bar = page.append('header');
bar.append('h1').text('Round the Sun');
const date = bar.append('output');
const slider = bar.append('input').attr('type', 'range').attr('min', -18262).attr('max', 18262).attr('aria-label', 'day');
const button = bar.append('button');

function figureOf(name, text) {
  const figure = page.append('figure').attr('class', name);
  figure.append('figcaption').text(text);
  return figure;
}
const scene = figureOf('scene', 'Orbits; distances by their cube roots');
const laws = figureOf('laws', 'The square of the period is the cube of the distance');
const distances = figureOf('distances', '');

const { days, runs } = daysOf(asked.get('day') ?? '2026-06-01', slider.node(), button.node());
const draws = [
  createScene(scene, { width: 690, height: 586 }, bodies, selected$),
  createLaws(laws, { width: 478, height: 262 }, bodies, selected$),
  createDistances(distances, { width: 478, height: 262 }, bodies, unit),
];
const selected = selected$.pipe(map((name) => bodies.find((body) => body.name === name)));

runs.subscribe((on) => button.text(on ? 'Stop' : 'Run'));
combineLatest([days, selected]).subscribe(([day, body]) => {
  date.text(utcFormat('%-d %B %Y')(dateOf(day)));
  slider.property('value', day);
  draws.forEach((draw) => draw(day, body));
  const from = body.name === 'Earth' ? 'the Sun' : 'the Earth';
  distances.select('figcaption').text(`${body.name}: distance from ${from}, ${unitOf(unit).title}`);
});
