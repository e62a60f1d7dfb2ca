import './base.js';
import './a.js';
export const b = globalThis.steps.push('b');
console.log('b');
