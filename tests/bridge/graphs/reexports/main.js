// Re-exports, stars over stars, names that are texts, and a star that a name of its own goes before.
export * from './star.js';
export * as 'a space' from './star.js';
export { default, default as plain, 'a name' as renamed } from './deep.js';
export const own = 'main';
import { 'a name' as text, own as theirs, far } from './star.js';
console.log(text, theirs, far);
