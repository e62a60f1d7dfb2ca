// One function's call: a script that leaks no name.
import { value } from './value.js';
const hidden = 'hidden';
console.log(value, hidden, typeof globalThis.hidden);
export { value };
