export const sum = (...numbers) => numbers.reduce((all, number) => all + number, 0);
export { default as times } from './times.js';
