// Side effects in the order in which modules run, once each.
import './c.js';
import './a.js';
import { b } from './b.js';
import './a.js';
console.log('main', b, globalThis.steps.join());
delete globalThis.steps;
