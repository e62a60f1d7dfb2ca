// Graphs of modules, each a folder with main.js: what Node does with the modules is what it has to do with their bundle, in
// either order.
// A file `options` has words for the bridge.
import fs from 'node:fs';
import path from 'node:path';
import { bundled, check, deepEqual, equal, here, imported, inFolder, match, played, scratch } from './check.mjs';

const words = (folder) => {
  const file = path.join(folder, 'options');
  return fs.existsSync(file) ? fs.readFileSync(file, 'utf8').trim().split(/\s+/) : [];
};

for (const name of inFolder('graphs').filter((it) => !it.includes('.'))) {
  const folder = path.join(here, 'graphs', name);
  const main = path.join(folder, 'main.js');
  const options = words(folder);
  const isScript = options.includes('--iife');
  // A script has no exports, and Node makes some for a CommonJS module of its own.
  const shown = isScript || options.includes('--require') ? played : imported;
  const wanted = shown(main);
  for (const order of ['standard', 'needs']) {
    const bundle = path.join(scratch, `${name}-${order}.${isScript ? 'cjs' : 'mjs'}`);
    const made = bundled([main, ...options, `--order=${order}`, '-o', bundle]);
    check(`${name}, --order=${order}, is bundled`, () => equal(made.status, 0, made.stderr));
    check(`${name}, --order=${order}: the bundle does and exports what the modules do`, () => deepEqual(shown(bundle), wanted));
  }
}

check('several entries are bundled to files of a folder', () => {
  const folder = path.join(scratch, 'entries');
  const entries = ['live/main.js', 'folders/b/index.js'].map((it) => path.join(here, 'graphs', it));
  const { status, stderr } = bundled([...entries, '-o', folder]);
  equal(status, 0, stderr);
  for (const entry of entries) {
    const bundle = path.join(folder, path.relative(path.join(here, 'graphs'), entry).replace(/\.js$/, '.mjs'));
    deepEqual(imported(bundle), imported(entry));
  }
});

check('two links to one file are one module', () => {
  const folder = fs.mkdtempSync(path.join(scratch, 'links-'));
  const write = (name, text) => fs.writeFileSync(path.join(folder, name), text);
  write('main.js', "import { one } from './file.js';\nimport { one as other } from './link.js';\nconsole.log(one === other);\n");
  write('file.js', "console.log('runs');\nexport const one = {};\n");
  write('package.json', '{ "type": "module" }');
  fs.symlinkSync('file.js', path.join(folder, 'link.js'));
  const original = played(path.join(folder, 'main.js'));
  const { status, stderr } = bundled(['main.js', '-o', 'out.mjs'], { cwd: folder });
  equal(status, 0, stderr);
  deepEqual(played(path.join(folder, 'out.mjs')), original);
});

// Here Node differs, so what is right was made by hand.
check('a default import of a CommonJS module is its property `default`, and `import * as` all of it', () => {
  const folder = fs.mkdtempSync(path.join(scratch, 'default-'));
  const write = (name, text) => fs.writeFileSync(path.join(folder, name), text);
  write('main.js', "import its, * as all from './c.cjs';\nconsole.log(its, Object.keys(all).join());\n");
  write('c.cjs', "exports.default = 'property';\nexports.other = 1;\n");
  const { status, stderr } = bundled(['main.js', '--require', '-o', 'out.mjs'], { cwd: folder });
  equal(status, 0, stderr);
  deepEqual(played(path.join(folder, 'out.mjs')), { status: 0, stdout: 'property default,other\n', error: undefined });
});

check('an external of a relative name is left as it is', () => {
  const folder = fs.mkdtempSync(path.join(scratch, 'external-'));
  const write = (name, text) => fs.writeFileSync(path.join(folder, name), text);
  write('main.js', "import { value } from './inside.js';\nimport { left } from './left.mjs';\nconsole.log(value, left);\n");
  write('inside.js', "export const value = 'inside';\n");
  write('left.mjs', "export const left = 'left';\n");
  write('package.json', '{ "type": "module" }');
  const original = played(path.join(folder, 'main.js'));
  equal(original.status, 0);
  const { status, stderr } = bundled(['main.js', '--external', './left.mjs', '-o', 'out.mjs'], { cwd: folder });
  equal(status, 0, stderr);
  match(fs.readFileSync(path.join(folder, 'out.mjs'), 'utf8'), /from "\.\/left\.mjs"/);
  deepEqual(played(path.join(folder, 'out.mjs')), original);
});
