import { k } from './main.js';
export function f() { k; }
console.log('a');
