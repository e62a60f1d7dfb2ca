// Two modules that need each other, through functions and values that are there in time.
import { even } from './even.js';
import { odd, depth } from './odd.js';
export const name = 'main';
console.log(even(10), odd(7), depth());
