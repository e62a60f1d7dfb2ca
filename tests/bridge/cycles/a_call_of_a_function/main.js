import './a.js';
console.log('m');
export function g() { console.log('g'); }
