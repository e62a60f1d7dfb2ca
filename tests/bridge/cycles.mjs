// Programs whose modules form a cycle, each a folder with main.js. The bundle does what Node does with the modules, but where a
// file says what it does in that order: standard.json, for which docs/DIFFERENCES.md says why, or needs.json. These files were
// made by hand: from the definitions, and where these allow several orders, from the one that the sort is known to pick.
import fs from 'node:fs';
import path from 'node:path';
import { bundled, check, deepEqual, equal, here, inFolder, match, played, scratch } from './check.mjs';

// What is said in a file of a folder, as `played` has it, or nothing.
function said(folder, name) {
  const file = path.join(folder, `${name}.json`);
  if (!fs.existsSync(file)) return undefined;
  const { stdout, error } = JSON.parse(fs.readFileSync(file, 'utf8'));
  return { status: error ? 1 : 0, stdout, error };
}

for (const name of inFolder('cycles').filter((it) => !it.includes('.'))) {
  const folder = path.join(here, 'cycles', name);
  const main = path.join(folder, 'main.js');
  for (const order of ['standard', 'needs']) {
    check(`${name}, --order=${order}: the bundle does what it has to do`, () => {
      const bundle = path.join(scratch, `${name}-${order}.mjs`);
      const { status, stderr } = bundled([main, `--order=${order}`, '-o', bundle]);
      equal(status, 0, stderr);
      deepEqual(played(bundle), said(folder, order) ?? played(main));
    });
  }
}

check('each cycle is told once, and the order is the standard\'s', () => {
  const folder = path.join(here, 'cycles', 'one_between');
  const { status, stdout, stderr } = bundled(['main.js'], { cwd: folder });
  equal(status, 0, stderr);
  equal(stderr, 'circular: a.js -> main.js -> a.js\n');
  match(stdout, /'a'[^]*'x'[^]*'main'/);
});

check('another word for the order is refused', () => {
  const { status, stderr } = bundled(['main.js', '--order=none']);
  equal(status, 2);
  match(stderr, /^bundle: --order is standard or needs\n/);
});
