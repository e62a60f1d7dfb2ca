import { k } from './main.js';
export function f() { console.log('f'); () => k; }
