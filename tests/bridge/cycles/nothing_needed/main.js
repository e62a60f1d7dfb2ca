import './a.js';
console.log('m');
console.log('n');
