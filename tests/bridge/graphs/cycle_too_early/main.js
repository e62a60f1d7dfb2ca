// Two values that each need the other one first: the same error.
import { second } from './second.js';
export const first = second + 1;
console.log('never');
