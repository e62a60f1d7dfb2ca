// The day that is shown, as a stream. Days count from J2000, noon of 1 January 2000.
import { animationFrames, EMPTY, fromEvent, merge, of } from 'rxjs';
import { concatWith, distinctUntilChanged, filter, map, pairwise, scan, shareReplay, startWith, switchMap } from 'rxjs/operators';

const NOON = Date.UTC(2000, 0, 1, 12);
const DAY = 86400000;
const STEPS = { ArrowLeft: -30, ArrowRight: 30, PageDown: -365, PageUp: 365 };
/** How many days go by in a second of a run. */
const SPEED = 120;

export const dateOf = (day) => new Date(NOON + day * DAY);

/** The day that a text like 2026-12-01 means. */
export function dayOf(text) {
  const day = Math.round((Date.parse(`${text}T12:00Z`) - NOON) / DAY);
  if (Number.isNaN(day)) {
    throw new TypeError(`no day is written ${text}`);
  }
  return day;
}

/** The days of a text, of a slider, of keys, and of a button that lets time run. */
export function daysOf(text, slider, button) {
  const slid = fromEvent(slider, 'input').pipe(map(() => () => slider.valueAsNumber));
  const stepped = fromEvent(document, 'keydown').pipe(
    filter(({ key, target }) => Object.hasOwn(STEPS, key) && target !== slider),
    map(({ key }) => (day) => day + STEPS[key]),
  );
  const runs = fromEvent(button, 'click').pipe(scan((on) => !on, false), shareReplay(1));
  const ran = runs.pipe(
    switchMap((on) => (on ? animationFrames().pipe(pairwise()) : EMPTY)),
    map(([before, after]) => (day) => day + ((after.elapsed - before.elapsed) * SPEED) / 1000),
  );
  const changes = of(text).pipe(map(dayOf), map((first) => () => first), concatWith(merge(slid, stepped, ran)));
  return {
    days: changes.pipe(scan((day, change) => change(day), 0), distinctUntilChanged(), shareReplay(1)),
    runs: runs.pipe(startWith(false)),
  };
}
