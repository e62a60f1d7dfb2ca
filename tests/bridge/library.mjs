// The caller that docs/LIBRARY.md shows, taken out of the page and built as it stands there: `node library.mjs FOLDER` writes
// its source, and `checkCaller` looks at what the program that was built of it writes.
import fs from 'node:fs';
import path from 'node:path';
import { fileURLToPath } from 'node:url';
import { textOf } from '../../bridge/write.mjs';
import { check, equal, run, top } from './check.mjs';

const page = fs.readFileSync(path.join(top, 'docs', 'LIBRARY.md'), 'utf8');
const blockAfter = (heading, language) => {
  const [, text] = new RegExp(`^## ${heading}\n.*?^\`\`\`${language}\n(.*?)^\`\`\``, 'ms').exec(page);
  return text;
};

function writeCaller(folder) {
  fs.mkdirSync(path.join(folder, 'src'), { recursive: true });
  fs.writeFileSync(path.join(folder, 'src', 'main.rt.txt'), blockAfter('One caller, whole', 'rust'));
  fs.writeFileSync(path.join(folder, 'crates'), blockAfter('One caller, whole', 'text'));
}

/** Looks at what the page's program writes: its bundle as JavaScript is what the page says, and so is its refusal. */
export function checkCaller(program) {
  check('the library page\'s caller writes the bundle and the refusal that the page says', () => {
    const { status, stdout, stderr } = run(program, []);
    equal(status, 0, stderr);
    const [bundle, refusal, rest] = stdout.split('\n');
    const [name, tree] = [bundle.slice(0, bundle.indexOf(':')), bundle.slice(bundle.indexOf(' ') + 1)];
    equal(name, 'out');
    equal(`${textOf(JSON.parse(tree))}\n`, blockAfter('What it writes', 'js'));
    equal(`${refusal}\n`, blockAfter('What it writes', 'text'));
    equal(rest, '');
  });
}

if (process.argv[1] === fileURLToPath(import.meta.url)) writeCaller(process.argv[2]);
