import { P } from './a.js';
var all;
console.log(all.length, new P() instanceof all[0]);
export function register(x) { (all ??= []).push(x); }
