import { f } from './a.js';
console.log('m');
export const k = 1;
