import { f } from './a.js';
f();
export const k = (console.log('k'), 1);
