import './base.js';
globalThis.steps.push('a');
console.log('a');
