import { f } from './main.js';
export const y = 1;
export function g() { return f(); }
