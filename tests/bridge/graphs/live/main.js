// Live bindings: what a module changes, its importers see; through re-exports too.
import { count, increase, reset as again } from './through.js';
import * as counter from './counter.js';
const seen = [count];
increase(); seen.push(count, counter.count);
increase(5); seen.push(count);
again(); seen.push(count, counter.count);
console.log(seen.join());
const read = () => count;
increase();
console.log(read(), `${count}`, { count }.count);
export { count, read };
