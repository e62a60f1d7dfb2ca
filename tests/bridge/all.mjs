// All tests of the bridge: `node all.mjs FOLDER`, with the programs that call the library. `run` beside it sees to what
// they need.
import path from 'node:path';
import { counted } from './check.mjs';

for (const tests of ['cycles', 'example', 'forms', 'graphs', 'told']) await import(`./${tests}.mjs`);
const { checkCaller } = await import('./library.mjs');
checkCaller(path.join(process.argv[2], 'caller'));
const { checkSections } = await import('./sections.mjs');
checkSections(path.join(process.argv[2], 'sections'));
process.exitCode = counted();
