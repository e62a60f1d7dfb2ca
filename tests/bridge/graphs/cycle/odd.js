import { even } from './even.js';
import { name } from './main.js';
let calls = 0;
export function odd(n) { calls++; return n === 0 ? false : even(n - 1); }
export const depth = () => `${name} ${calls}`;
console.log('odd', typeof even);
