import { first } from './main.js';
console.log('second');
export const second = first + 1;
