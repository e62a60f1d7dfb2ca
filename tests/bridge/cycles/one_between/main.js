import './a.js';
import './x.js';
console.log('main');
