// Modules that are left as imports: a default, names, a namespace, a bare import; of two modules at once.
import path, { join as joined, sep } from 'node:path';
import * as os from 'node:os';
import 'node:fs';
import { paths, join } from './paths.js';
console.log(path.basename('/a/b'), joined('a', 'b') === join('a', 'b'), sep === paths.sep, typeof os.cpus, Object.keys(os).length > 3);
export { join } from 'node:path';
export { os as system };
