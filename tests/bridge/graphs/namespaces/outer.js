import * as numbers from './numbers.js';
export * as shapes from './shapes.js';
export { numbers };
