// Names that may be no binding everywhere, and words that only look like it.
import { abstract, int as double } from './words.js';
const of = 1, async = 2, get = 3, from = 4, as = 5, target = 6, meta = 7;
console.log(abstract, double, of + async + get + from + as + target + meta);
console.log({ abstract, double }.double, { class: 1, static: 2 }.static);
export { abstract, double };
