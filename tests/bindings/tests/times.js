import { sum } from './sum.js';
export default (count, number) => sum(...Array(count).fill(number));
