import { sum } from './sum.js';

export function testGood() {}
export function testBad() {
  if (sum(1, 1) !== 3) throw new Error('one and one are not three');
}
