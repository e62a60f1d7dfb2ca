import { get } from './a.js';
globalThis.done = true;
export const v = 1;
console.log(get());
