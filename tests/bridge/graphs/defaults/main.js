// Defaults of each kind, imported under names of their own and beside named imports.
import expression from './expression.js';
import named, { called } from './named.js';
import Nameless, * as nameless from './nameless.js';
import { default as list, size } from './list.js';
import arrow from './arrow.js';
console.log(expression, named(), called, new Nameless().kind, nameless.default === Nameless, list.join(), size, arrow(2));
export { expression as default, named };
