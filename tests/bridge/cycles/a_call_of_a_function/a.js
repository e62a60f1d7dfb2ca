import { g } from './main.js';
g();
