// Counts the instructions of the command on programs that a stranger may hand it: each shape at N and 4 N, in millions, and
// how 4 N stands to N, where 4 is linear.
//
//   node bench/texts.mjs PROGRAM [--seconds] [SHAPE[=N] ..]
//
// With --seconds it takes those of the processor in the program and in the system for it, the least of three runs. It needs
// Debian's package `valgrind` to count, and `time` for seconds.
import { spawnSync } from 'node:child_process';
import fs from 'node:fs';
import os from 'node:os';
import path from 'node:path';
import process from 'node:process';

const upTo = (count, make) => Array.from({ length: count }, (_, at) => make(at));
const lines = (count, make) => upTo(count, make).join('\n');
const listed = (count, make) => upTo(count, make).join(', ');
const named = (count, make) => Object.fromEntries(upTo(count, make));
const text = (main) => ({ files: { 'in.mjs': main } });
const script = (main) => ({ files: { 'in.js': main } });
const packaged = (description, files, main, ...words) => ({
  files: {
    'in.mjs': main,
    'node_modules/p/package.json': JSON.stringify({ name: 'p', ...description }),
    ...Object.fromEntries(files.map((name) => [`node_modules/p/${name}`, ''])),
  },
  words,
});

// What each name makes of N: the files, of which `in.mjs`, `in.js` and `e0.mjs` and so on are entries, and further words.
const shapes = {
  // One text.
  labels: [1000, (n) => text(lines(n, (at) => `l${at}: { break l${at}; }`))],
  private_names: [1000, (n) => text(`class A { ${lines(n, (at) => `#p${at} = 1;`)} m() { return [${listed(n, (at) => `this.#p${at}`)}]; } } new A();`)],
  lost_private_names: [1000, (n) => text(`class A { m() { ${lines(n, (at) => `this.#q${at};`)} } ${lines(n, (at) => `#q${at};`)} }`)],
  keys: [1000, (n) => text(`x = { ${listed(n, (at) => `a${at}: 1`)}, __proto__: 1 };`)],
  variables: [1000, (n) => text(lines(n, (at) => `let a${at} = ${at};`))],
  one_variable: [1000, (n) => text(lines(n, (at) => `var a = ${at};`))],
  parameters: [1000, (n) => text(`function f(${listed(n, (at) => `a${at}`)}) { return a0; } f();`)],
  template: [1000, (n) => text(`x = \`${upTo(n, () => 'a${b}').join('')}\`;`)],
  cases: [1000, (n) => text(`switch (x) { ${lines(n, (at) => `case ${at}: break;`)} }`)],
  sequence: [1000, (n) => text(`x = (${listed(n, (at) => `a${at}`)});`)],
  comments: [5000, (n) => text(`${lines(n, (at) => `// c${at}`)}\n;`)],
  kept_comments: [1000, (n) => text(lines(n, (at) => `/*! c${at} */ a${at};`))],
  patterns: [1000, (n) => text(lines(n, (at) => `/[a-z]${at}(?<n>b)\\k<n>/u;`))],
  groups: [500, (n) => text(`x = /${upTo(n, (at) => `(?<g${at}>a)`).join('')}${upTo(n, (at) => `\\k<g${at}>`).join('')}/;`)],
  strings: [1000, (n) => text(lines(n, (at) => `"s${at}";`))],
  escapes: [5000, (n) => text(`x = "${'\\u0041'.repeat(n)}";`)],
  exports: [1000, (n) => text(lines(n, (at) => `export const e${at} = ${at};`))],
  export_list: [1000, (n) => text(`${lines(n, (at) => `const e${at} = ${at};`)} export { ${listed(n, (at) => `e${at} as x${at}`)} };`)],
  node_imports: [500, (n) => text(lines(n, (at) => `import { a${at} } from 'node:fs'; a${at};`))],
  classes: [500, (n) => text(lines(n, (at) => `class C${at} extends C${Math.max(at - 1, 0)} { static s = 1; m() { super.m(); } }`))],
  members: [1000, (n) => text(`class A { ${lines(n, (at) => `m${at}() {}`)} }`)],
  awaits: [1000, (n) => text(lines(n, (at) => `await a${at};`))],
  clashes: [500, (n) => text(lines(n, (at) => `function f${at}(a) { return function g(a) { return a; }; }`))],
  common_js_exports: [1000, (n) => script(lines(n, (at) => `exports.p${at} = ${at};`))],
  definitions: [500, (n) => script(lines(n, (at) => `Object.defineProperty(exports, 'p${at}', { get() { return 1; } });`))],
  metas: [500, (n) => text(lines(n, () => 'console.log(import.meta.url);'))],
  mapped: [500, (n) => ({ ...text(lines(n, (at) => `export const e${at} = f${at}(${at});`)), words: ['--sourcemap'] })],
  // Many files.
  chain: [100, (n) => ({ files: { 'in.mjs': `import './m0.mjs';`, ...named(n, (at) => [`m${at}.mjs`, at + 1 < n ? `import './m${at + 1}.mjs';` : '']) } })],
  stars: [100, (n) => ({ files: { 'in.mjs': `export * from './m0.mjs';`, ...named(n, (at) => [`m${at}.mjs`, `export const e${at} = ${at};${at + 1 < n ? `export * from './m${at + 1}.mjs';` : ''}`]) } })],
  ring: [100, (n) => ({ files: { 'in.mjs': `import './m0.mjs';`, ...named(n, (at) => [`m${at}.mjs`, `import { e${(at + 1) % n} as q } from './m${(at + 1) % n}.mjs'; export function e${at}() { return q; }`]) } })],
  required: [100, (n) => ({ files: { 'in.js': `require('./m0.js');`, ...named(n, (at) => [`m${at}.js`, `exports.a = 1;${at + 1 < n ? `require('./m${at + 1}.js');` : ''}`]) } })],
  named_of_common_js: [100, (n) => ({ files: { 'in.mjs': lines(n, (at) => `import { a as a${at} } from './m${at}.cjs'; a${at};`), ...named(n, (at) => [`m${at}.cjs`, 'exports.a = 1;']) } })],
  dynamic: [100, (n) => ({ files: { 'in.mjs': lines(n, (at) => `import('./m${at}.mjs');`), ...named(n, (at) => [`m${at}.mjs`, `export const a = ${at};`]) } })],
  entries: [50, (n) => ({ files: named(n, (at) => [`e${at}.mjs`, `export const a = ${at};`]), words: ['--outdir=out'] })],
  json: [1000, (n) => ({ files: { 'in.mjs': `import j from './j.json'; j;`, 'j.json': JSON.stringify(upTo(n, (at) => ({ a: at, b: [at] }))) } })],
  json_names: [1000, (n) => ({ files: { 'in.mjs': `import * as j from './j.json'; j;`, 'j.json': JSON.stringify(named(n, (at) => [`k${at}`, at])) } })],
  // Packages.
  packages: [50, (n) => ({ files: { 'in.mjs': lines(n, (at) => `import 'p${at}';`), ...named(n, (at) => [`node_modules/p${at}/package.json`, '{"main":"i.js"}']), ...named(n, (at) => [`node_modules/p${at}/i.js`, '']) } })],
  conditions: [1000, (n) => packaged({ exports: { '.': { ...named(n, (at) => [`c${at}`, './no.js']), default: './i.js' } } }, ['i.js'], `import 'p';`)],
  export_names: [200, (n) => packaged({ exports: named(n, (at) => [`./x${at}`, './i.js']) }, ['i.js'], lines(n, (at) => `import 'p/x${at}';`))],
  export_patterns: [200, (n) => packaged({ exports: named(n, (at) => [`./x${at}/*`, './i.js']) }, ['i.js'], lines(n, (at) => `import 'p/x${at}/q';`))],
  export_conditions: [200, (n) => packaged({ exports: { './*': { ...named(n, (at) => [`c${at}`, './no.js']), default: './i.js' } } }, ['i.js'], lines(n, (at) => `import 'p/x${at}';`))],
  export_alternatives: [200, (n) => packaged({ exports: { './*': [...upTo(n, () => 'no'), './i.js'] } }, ['i.js'], lines(n, (at) => `import 'p/x${at}';`))],
  browser_map: [200, (n) => packaged({ browser: named(n, (at) => [`./f${at}.js`, './i.js']) }, ['i.js'], lines(n, (at) => `import 'p/f${at}.js';`), '--platform=browser')],
  left: [500, (n) => ({ ...text(lines(n, (at) => `import a${at} from 'p${at}'; a${at};`)), words: ['--external=*'] })],
  // What is refused.
  unfound: [200, (n) => text(lines(n, (at) => `import './none${at}.js';`))],
  unfound_packages: [200, (n) => text(lines(n, (at) => `import 'none${at}';`))],
  missing: [200, (n) => ({ files: { 'in.mjs': `import { ${listed(n, (at) => `z${at}`)} } from './o.mjs';`, 'o.mjs': '' } })],
  missing_over_stars: [100, (n) => ({ files: { 'in.mjs': lines(n, (at) => `import { z${at} } from './m0.mjs';`), ...named(n, (at) => [`m${at}.mjs`, at + 1 < n ? `export * from './m${at + 1}.mjs';` : '']) } })],
  ambiguous: [200, (n) => ({ files: { 'in.mjs': lines(n, (at) => `import { x${at} } from './both.mjs';`), 'both.mjs': `export * from './a.mjs'; export * from './b.mjs';`, ...named(2, (at) => [`${'ab'[at]}.mjs`, lines(n, (of) => `export const x${of} = 1;`)]) } })],
  doubled: [500, (n) => text(lines(n, (at) => `let a${at}; let a${at};`))],
  far: [20000, (n) => text(`${'\n'.repeat(n)}a b`)],
};

const words = process.argv.slice(2);
const counts = !words.includes('--seconds');
const [program, ...asked] = words.filter((word) => !word.startsWith('--'));
if (!program) {
  console.error('usage: node bench/texts.mjs PROGRAM [--seconds] [SHAPE[=N] ..]');
  process.exit(2);
}
const wanted = asked.length > 0 ? asked.map((word) => word.split('=')) : Object.keys(shapes).map((shape) => [shape]);
const unknown = wanted.find(([shape]) => !Object.hasOwn(shapes, shape));
if (unknown) {
  console.error(`${unknown[0]}: the shapes are ${Object.keys(shapes).join(', ')}`);
  process.exit(2);
}

const folder = fs.mkdtempSync(path.join(os.tmpdir(), 'texts-'));
process.on('exit', () => fs.rmSync(folder, { recursive: true }));

// Makes the files of a shape in the folder, and gives the words that bundle them.
function made({ files, words: more = [] }) {
  fs.rmSync(folder, { recursive: true });
  for (const [name, its] of Object.entries(files)) {
    fs.mkdirSync(path.dirname(path.join(folder, name)), { recursive: true });
    fs.writeFileSync(path.join(folder, name), its);
  }
  const entries = Object.keys(files).filter((name) => /^(in\.m?js|e\d+\.mjs)$/.test(name));
  const output = more.some((word) => word.startsWith('--outdir')) ? [] : ['-o', 'out.mjs'];
  return [...entries, ...output, '--log-level=error', ...more];
}

// Runs a command in the folder; gives its status and the lines that it wrote of errors.
function run(command, its) {
  const { status, stderr, error } = spawnSync(command, its, { cwd: folder, encoding: 'utf8', timeout: 600_000 });
  if (error?.code === 'ENOENT') throw new Error(`${command} is not here`);
  return { status, lines: stderr.trim().split('\n') };
}

function instructions(its) {
  const { status, lines: told } = run('valgrind', ['--tool=callgrind', '--callgrind-out-file=/dev/null', path.resolve(program), ...its]);
  const found = told.join('\n').match(/Collected : (\d+)/);
  return { cost: found ? Number(found[1]) / 1e6 : NaN, status };
}

function seconds(its) {
  const runs = upTo(3, () => run('/usr/bin/time', ['-f', '%U %S', path.resolve(program), ...its]));
  const costs = runs.map(({ lines: told }) => told.at(-1).split(' ').reduce((sum, word) => sum + Number(word), 0));
  return { cost: Math.min(...costs), status: runs[0].status };
}

const line = (cells) => console.log(`| ${cells.join(' | ')} |`);
line(['Shape', 'N', counts ? 'Million instructions at N and 4 N' : 'Seconds at N and 4 N', 'Growth', 'Status']);
line(Array(5).fill('---'));
for (const [shape, size] of wanted) {
  const [usual, make] = shapes[shape];
  const count = Number(size ?? usual);
  const [{ cost, status }, fourfold] = [count, 4 * count].map((n) => (counts ? instructions : seconds)(made(make(n))));
  const digits = counts ? 0 : 2;
  line([`\`${shape}\``, count, `${cost.toFixed(digits)}, ${fourfold.cost.toFixed(digits)}`, (fourfold.cost / cost).toFixed(1), status]);
}
