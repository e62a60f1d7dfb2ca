// Names that clash: of two modules, of locals with imports, and with globals.
import { value, label as title } from './left.js';
import { value as other, label } from './right.js';
import { log } from './console.js';
const value1 = 'mine';
function shadow(value) { const label = value + other; return { value, label, title }; }
{ const other = 'block'; log(other, value1); }
log(value, other, label, title, JSON.stringify(shadow(1)), typeof console.log);
class Value { static value = value; static other() { return value1 + other; } }
log(Value.value, Value.other(), (function value() { return typeof value; })(), [1].map((other) => other + value)[0]);
try { throw { value: 'caught' }; } catch ({ value }) { log(value); }
log(JSON.stringify({ value, other, value1 }), typeof undefined, typeof globalThis);
export { value, value1, other as label };
