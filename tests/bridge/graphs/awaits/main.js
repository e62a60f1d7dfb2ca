// `await` at the top, in modules that others wait for.
import { first } from './first.js';
import { second } from './second.js';
console.log(first, second);
const third = await Promise.resolve('third');
for await (const one of [third, Promise.resolve('fourth')]) console.log(one);
export { third };
