// The example of the bridge's README: its files, the document that the program is run on, and the bundle.
import fs from 'node:fs';
import path from 'node:path';
import { moduleOf } from '../../bridge/read.mjs';
import { bundled, check, deepEqual, equal, fileOf, top } from './check.mjs';

const readme = fs.readFileSync(path.join(top, 'bridge', 'README.md'), 'utf8');
const [sources, bundle] = [...readme.matchAll(/```js\n(.*?)```/gs)].map(([, text]) => text);
const [, main, imported] = /^\/\/ main\.js\n(.*)^\/\/ a\.js\n(.*)/ms.exec(sources);
const file = fileOf('main.js', main);
fs.writeFileSync(path.join(path.dirname(file), 'a.js'), imported);

check('the README\'s example is bundled to its bundle, byte for byte', () => {
  const { status, stdout, stderr } = bundled([file]);
  equal(status, 0, stderr);
  equal(stdout, bundle);
});

// What that document leaves out stands for null, false and an empty list.
const withoutAbsent = (value) => {
  if (Array.isArray(value)) return value.map(withoutAbsent);
  if (value === null || typeof value !== 'object') return value;
  const isAbsent = (part) => part === null || part === false || (Array.isArray(part) && part.length === 0);
  return Object.fromEntries(Object.entries(value).filter(([key, part]) => key !== 'raw' && !isAbsent(part))
    .map(([key, part]) => [key, withoutAbsent(part)]));
};
check('the README\'s files are the trees of its document', () => {
  const document = JSON.parse(fs.readFileSync(path.join(top, 'crates', 'bundle_json', 'stdin'), 'utf8'));
  const trees = { 'main.js': moduleOf(main, 'main.js'), 'a.js': moduleOf(imported, 'a.js') };
  deepEqual(withoutAbsent(trees), withoutAbsent(document.files));
});
