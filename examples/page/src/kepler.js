import { titleOf } from './body.js';

/** Solves Kepler's equation for the eccentric anomaly, by Newton's steps. */
export function eccentricAnomaly(mean, orbit) {
  const e = orbit.eccentricity;
  if (e >= 1) {
    throw new RangeError(`${titleOf(orbit.body)} does not come back`);
  }
  let anomaly = e < 0.8 ? mean : Math.PI + 2 * Math.PI * Math.floor(mean / (2 * Math.PI));
  for (let step = 0; step < 30; step += 1) {
    anomaly -= (anomaly - e * Math.sin(anomaly) - mean) / (1 - e * Math.cos(anomaly));
  }
  return anomaly;
}
