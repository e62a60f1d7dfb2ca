import { eccentricAnomaly } from './kepler.js';

const DEGREE = Math.PI / 180;
const YEAR = 365.256363;

/** An ellipse by its elements of J2000, in astronomical units and degrees. */
export class Orbit {
  constructor(body, elements) {
    Object.assign(this, elements);
    this.body = body;
  }

  /** The time of one turn, in days: Kepler's third law. */
  get period() {
    return YEAR * this.axis ** 1.5;
  }

  /** The place at a day after J2000, in the plane of the Earth's orbit and above it. */
  at(day) {
    const mean = (this.longitude - this.perihelion) * DEGREE + (2 * Math.PI * day) / this.period;
    return this.placeOf(eccentricAnomaly(mean, this));
  }

  /** Places all round, evenly in the eccentric anomaly. */
  outline(count) {
    return Array.from({ length: count }, (_, i) => this.placeOf((2 * Math.PI * i) / count));
  }

  placeOf(anomaly) {
    const { axis, eccentricity } = this;
    const x = axis * (Math.cos(anomaly) - eccentricity);
    const y = axis * Math.sqrt(1 - eccentricity ** 2) * Math.sin(anomaly);
    const [node, tilt, turn] = [this.node, this.inclination, this.perihelion - this.node].map((angle) => angle * DEGREE);
    const u = x * Math.cos(turn) - y * Math.sin(turn);
    const v = x * Math.sin(turn) + y * Math.cos(turn);
    return {
      x: u * Math.cos(node) - v * Math.cos(tilt) * Math.sin(node),
      y: u * Math.sin(node) + v * Math.cos(tilt) * Math.cos(node),
      z: v * Math.sin(tilt),
    };
  }
}
