import './main.js';
console.log('a');
