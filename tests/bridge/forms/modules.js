// Each form of import and export (ECMA-262, 16.2).
import fallback from 'node:path';
import * as all from 'node:path';
import { join, sep as separator, default as again } from 'node:path';
import both, { basename } from 'node:path';
import starred, * as rest from 'node:os';
import { 'join' as quoted } from 'node:path';
import { } from 'node:fs';
import 'node:url';
export const one = 1, { two, list: [three] } = { two: 2, list: [3] };
export let changing = 0;
export var old;
export function act() { changing++; return changing; }
export async function* later() { yield 1; }
export class Thing { static name2 = 'thing'; }
const local = 'local';
export { local, local as other, local as 'a string name', changing as default };
export { join as joined, default as path } from 'node:path';
export { };
export * as space from 'node:path';
export * from 'node:events';
act();
console.log(fallback === all.default, join('a', 'b'), separator, again === both, basename('/x/y'), quoted === join);
console.log(typeof starred, typeof rest.EOL, one, two, three, changing, old, local, Thing.name2);
