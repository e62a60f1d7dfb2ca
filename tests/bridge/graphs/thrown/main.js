// An error that a module throws ends the bundle alike, with what was written before it.
import './before.js';
import { fail } from './fail.js';
console.log('never');
fail();
