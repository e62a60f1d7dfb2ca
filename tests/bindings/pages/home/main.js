import { menu } from '../shared/menu.js';
console.log(`home ${menu(['about'])}`);
