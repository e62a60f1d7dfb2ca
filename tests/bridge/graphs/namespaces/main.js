// A namespace read by plain members, as a whole, through another module, and by names that are not there.
import * as numbers from './numbers.js';
import * as outer from './outer.js';
import { numbers as again, shapes } from './outer.js';
console.log(numbers['count'], Object.keys(numbers).join(), 'count' in numbers, numbers.missing);
numbers.increase();
console.log(numbers.count, outer.numbers.count, again.count);
console.log(Object.keys(shapes).join(), shapes.square(3));
const { square, ...rest } = shapes;
console.log(square(4), Object.keys(rest).join(), typeof outer.shapes.default);
for (const key in shapes) console.log(key);
export { shapes as forms };
