// What goes round the Sun. This file, orbit.js and kepler.js import each other in a ring.
import { Orbit } from './orbit.js';

export class Body {
  constructor({ name, colour, radius, ring = false, ...elements }) {
    Object.assign(this, { name, colour, radius, ring });
    this.orbit = new Orbit(this, elements);
  }
}

/** The name of a body, with what its orbit is like. */
export const titleOf = ({ name, orbit }) => `${name} (eccentricity ${orbit.eccentricity})`;
