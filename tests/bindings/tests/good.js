import assert from 'node:assert';
import { sum, times } from './sum.js';

export function testSumOfNone() {
  assert.equal(sum(), 0);
}
export async function testTimes() {
  assert.equal(times(3, 4), 12);
}
export const testUrl = () => assert.ok(import.meta.url.endsWith('/good.js'));
export const helper = () => assert.fail('this is no test');
