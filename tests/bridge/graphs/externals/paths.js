import * as paths from 'node:path';
import { join } from 'node:path';
export { paths, join };
console.log(typeof paths.default, paths.extname('x.js'));
