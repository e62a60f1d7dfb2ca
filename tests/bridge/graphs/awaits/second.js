import { first } from './first.js';
console.log('second after', first);
export const second = await first.length;
