// Packages, loaded by Node before and after they are bundled: what `require` and `import` give is of the same shape.
// Usage: node shapes.mjs PROGRAM FOLDER [NAME]: FOLDER has node_modules; with NAME, the packages whose names hold it. The file
// `otherwise` beside this one has the packages that are not alike, a reason for each. What Node itself does not load, or
// loads otherwise each time, is counted apart. The status is 1 where a package is not alike that has no reason, or has one
// and is alike.
import { spawn } from 'node:child_process';
import fs from 'node:fs';
import { createRequire } from 'node:module';
import os from 'node:os';
import path from 'node:path';

const program = path.resolve(process.argv[2]);
const modules = path.resolve(process.argv[3], 'node_modules');
const only = process.argv[4];
const here = import.meta.dirname ?? path.dirname(new URL(import.meta.url).pathname);
// So many packages are loaded by one process; those that it finds otherwise are loaded again, each by its own.
const batch = 25;
const limit = 120_000;

const reasons = new Map(fs.readFileSync(path.join(here, 'otherwise'), 'utf8').split('\n')
  .filter((line) => line && !line.startsWith('#')).map((line) => [line.slice(0, line.indexOf(' ')), line.slice(line.indexOf(' ') + 1)]));

const folder = fs.realpathSync(fs.mkdtempSync(path.join(os.tmpdir(), 'shapes-')));
process.on('exit', () => fs.rmSync(folder, { recursive: true }));
fs.symlinkSync(modules, path.join(folder, 'node_modules'));
const { resolve } = createRequire(path.join(folder, 'any.cjs'));

// A program that loads files, and writes the shape of what each exports as `it`: its type, and the keys and types of what it
// holds.
const loader = path.join(folder, 'loader.mjs');
fs.writeFileSync(loader, `
import fs from 'node:fs';
const [results, ...files] = process.argv.slice(2);
const shape = (value, depth) => {
  if (value === null || (typeof value !== 'object' && typeof value !== 'function')) return typeof value;
  const keys = depth === 0 ? [] : Object.keys(value).filter((key) => key !== 'module.exports').sort().map((key) => {
    try { return key + ':' + shape(value[key], depth - 1); } catch { return key + ':?'; }
  });
  return typeof value + '{' + keys.join() + '}';
};
process.on('uncaughtException', () => {});
for (const file of files) {
  const late = new Promise((_, reject) => setTimeout(() => reject(new Error('it takes too long')), 20000).unref());
  let told;
  try {
    const given = await Promise.race([import(file), late]);
    const it = 'it' in given ? given.it : given.default.it;
    told = { shape: shape(it, 2) };
  } catch (error) {
    told = { error: String(error?.message ?? error).split('\\n')[0] };
  }
  fs.appendFileSync(results, JSON.stringify({ file, ...told }) + '\\n');
}
process.exit(0);
`);

function run(command, words, stdio = 'pipe') {
  return new Promise((resolve) => {
    const child = spawn(command, words, { cwd: folder, stdio: ['ignore', 'ignore', stdio], timeout: limit });
    let stderr = '';
    child.stderr?.setEncoding('utf8').on('data', (text) => { stderr += text; });
    child.on('close', (status) => resolve({ status, stderr }));
  });
}

// What Node makes of files, by their paths: a shape or an error each; nothing where the process ended before.
let processes = 0;
async function loaded(files) {
  const results = path.join(folder, `results-${processes}`);
  processes += 1;
  fs.writeFileSync(results, '');
  await run('node', [loader, results, ...files], 'ignore');
  return new Map(fs.readFileSync(results, 'utf8').trim().split('\n').filter(Boolean).map(JSON.parse).map((told) => [told.file, told]));
}

const packageOf = (name) => JSON.parse(fs.readFileSync(path.join(modules, name, 'package.json'), 'utf8'));

// Whether a package has a main module for `require`.
function hasMain(name) {
  try { resolve(name); } catch { return false; }
  return true;
}

// Whether the file of a package is an ECMAScript module, by a line of its text.
function isModule(name, file) {
  const at = path.join(modules, name, file);
  return fs.existsSync(at) && fs.statSync(at).isFile() && /^\s*(import|export)\b/m.test(fs.readFileSync(at, 'utf8'));
}

// The ways in which a package is asked for, of its ECMAScript modules and of its CommonJS modules: an entry each.
function entriesOf(name) {
  const { exports, type, module } = packageOf(name);
  const namespace = (specifier) => ({ name, sort: 'es', ending: 'mjs', text: `import * as it from '${specifier}';\nexport { it };\n` });
  if (type === 'module' || JSON.stringify(exports ?? '').includes('.mjs')) return [namespace(name)];
  return [
    ...(typeof module === 'string' && isModule(name, module) ? [namespace(`./node_modules/${name}/${module}`)] : []),
    ...(hasMain(name) ? [{ name, sort: 'commonJs', ending: 'cjs', text: `exports.it = require('${name}');\n` }] : []),
  ];
}

// The names of the packages in a folder.
function namesIn(folder) {
  return fs.readdirSync(folder).sort().flatMap((name) => {
    if (name.startsWith('@')) return fs.readdirSync(path.join(folder, name)).map((inner) => `${name}/${inner}`);
    return [name];
  }).filter((name) => fs.existsSync(path.join(folder, name, 'package.json')));
}

const sorts = { es: 'of ECMAScript modules', commonJs: 'of CommonJS modules' };
const counts = { es: { alike: 0, otherwise: 0, refused: 0, node: 0 }, commonJs: { alike: 0, otherwise: 0, refused: 0, node: 0 } };
const strange = new Map();

function note({ name, sort }, outcome, told) {
  counts[sort][outcome] += 1;
  if (outcome === 'otherwise' || outcome === 'refused') {
    strange.set(name, outcome);
    console.log(`shapes: ${name}, ${sorts[sort]}: ${outcome}: ${told}`);
  }
}

function difference(before, after) {
  if (!after?.shape) return after?.error ?? 'Node ends';
  const keys = (text) => new Set(text.split(/[{},]/));
  const [old, made] = [keys(before.shape), keys(after.shape)];
  const only = (a, b) => [...a].filter((key) => !b.has(key)).slice(0, 5).join(' ');
  return `another shape: without ${only(old, made) || 'nothing'}, with ${only(made, old) || 'nothing'}`;
}

// An entry that a common process found otherwise, by a process each.
async function checkAlone(entry) {
  const { file, bundle } = entry;
  const before = (await loaded([file])).get(file);
  if (!before?.shape) return note(entry, 'node');
  const after = (await loaded([bundle])).get(bundle);
  if (after?.shape === before.shape) return note(entry, 'alike');
  const again = (await loaded([file])).get(file);
  return before.shape === again?.shape ? note(entry, 'otherwise', difference(before, after)) : note(entry, 'node');
}

async function checkBatch(entries) {
  const before = await loaded(entries.map(({ file }) => file));
  const made = [];
  for (const entry of entries) {
    const there = before.get(entry.file);
    if (there?.error) {
      note(entry, 'node');
      continue;
    }
    const { status, stderr } = await run(program, [entry.file, '-o', entry.bundle, '--log-level=error']);
    if (status === 0) made.push(entry);
    else note(entry, 'refused', stderr.split('\n').slice(0, 2).join(' '));
  }
  const after = await loaded(made.map(({ bundle }) => bundle));
  for (const entry of made) {
    const shape = before.get(entry.file)?.shape;
    if (shape !== undefined && shape === after.get(entry.bundle)?.shape) note(entry, 'alike');
    else await checkAlone(entry);
  }
}

const entries = namesIn(modules).filter((name) => !only || name.includes(only)).flatMap(entriesOf);
entries.forEach((entry, number) => {
  entry.file = path.join(folder, `main-${number}.${entry.ending}`);
  entry.bundle = path.join(folder, `bundle-${number}.mjs`);
  fs.writeFileSync(entry.file, entry.text);
});
for (let at = 0; at < entries.length; at += batch) await checkBatch(entries.slice(at, at + batch));

let wrong = 0;
for (const name of new Set(entries.map((entry) => entry.name))) {
  if (strange.has(name) === reasons.has(name)) continue;
  wrong += 1;
  console.log(`shapes: ${name} ${strange.has(name) ? 'is not alike, and has no reason' : 'is alike, and has a reason why not'}`);
}
for (const [sort, { alike, otherwise, refused, node }] of Object.entries(counts)) {
  console.log(`shapes: packages ${sorts[sort]}: ${alike} alike, ${otherwise} otherwise, ${refused} refused, ${node} that Node does not load`);
}
process.exitCode = wrong === 0 ? 0 : 1;
