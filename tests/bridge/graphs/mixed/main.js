// An ES module that imports a CommonJS one by name; it runs where it is first loaded.
import { area, unit } from './shapes.cjs';
import { scaled } from './scaled.js';
console.log(area(2, 3), unit, scaled(2));
export { unit };
