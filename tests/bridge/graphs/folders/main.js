// Files of one name in several folders, `../x`, a folder's index, .mjs beside .js, and names with blanks.
import { here } from './a/index.js';
import { here as there } from './b/index.js';
import { both } from './b/both.mjs';
import { both as script } from './b/both.js';
import { odd } from './a b/ü & \'quoted\'.js';
console.log(here, there, both, script, odd);
