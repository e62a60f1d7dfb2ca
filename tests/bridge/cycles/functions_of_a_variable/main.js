import { y } from './m1.js';
export const f = y;
console.log(typeof f);
