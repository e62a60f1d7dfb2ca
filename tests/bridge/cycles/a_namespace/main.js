import * as a from './a.js';
export function f() { return a['y']; }
console.log(f());
