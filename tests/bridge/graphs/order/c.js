import { b } from './b.js';
globalThis.steps.push('c');
console.log('c', b);
