import * as self from './main.js';
export const one = 1;
export function all() { return Object.keys(self).length; }
console.log(all());
