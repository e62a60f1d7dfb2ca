import { menu } from '../shared/menu.js';
console.log(`about ${menu(['home', 'us'])}`);
