import { up } from '../b/index.js';
import { name } from '.././a/deeper/../name.js';
export const here = `a ${name} ${up}`;
