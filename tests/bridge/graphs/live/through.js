export { count, increase } from './counter.js';
export { default as reset } from './counter.js';
