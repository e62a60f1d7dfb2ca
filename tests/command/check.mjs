// Programs of several files, run by Node before and after they are bundled, and what is refused.
// Usage: node check.mjs PROGRAM PACKAGES [NAME]: with NAME, the rows whose names hold it.
import { spawnSync } from 'node:child_process';
import fs from 'node:fs';
import os from 'node:os';
import path from 'node:path';

const program = path.resolve(process.argv[2]);
const here = import.meta.dirname ?? path.dirname(new URL(import.meta.url).pathname);
const packages = path.resolve(process.argv[3], 'node_modules');
const only = process.argv[4];

// The rows of a file: a name, settings and files each.
function rowsOf(file) {
  const rows = [];
  for (const text of fs.readFileSync(path.join(here, file), 'utf8').split(/^## /m).slice(1)) {
    const [head, ...parts] = text.split(/^=== /m);
    const [name, ...lines] = head.trim().split('\n');
    const said = (word) => lines.filter((line) => line.startsWith(`# ${word}`))
      .map((line) => line.slice(word.length + 2).replace(/^: ?/, ''));
    const files = parts.map((part) => [part.slice(0, part.indexOf('\n')), part.slice(part.indexOf('\n') + 1)]);
    rows.push({ name, said, files });
  }
  return rows;
}

// A folder with the files of a row.
function folderOf({ files, said }) {
  const folder = fs.realpathSync(fs.mkdtempSync(path.join(os.tmpdir(), 'command-')));
  for (const [name, text] of files) {
    fs.mkdirSync(path.dirname(path.join(folder, name)), { recursive: true });
    const deep = said('deep').includes(name);
    fs.writeFileSync(path.join(folder, name), deep ? `x = ${'['.repeat(20000)}${']'.repeat(20000)};` : text);
  }
  return folder;
}

const run = (command, words, folder) => spawnSync(command, words, { cwd: folder, encoding: 'utf8', timeout: 60000 });
const words = (row, word) => row.said(word).flatMap((line) => line.split(' ')).filter(Boolean);

// A program over packages.
function checkReal(row) {
  return checkProgram(row, (folder) => fs.symlinkSync(packages, path.join(folder, 'node_modules')));
}

function checkProgram(row, prepare = () => {}) {
  const folder = folderOf(row);
  prepare(folder);
  try {
    const entry = row.said('entry')[0] ?? 'main.mjs';
    const before = run('node', [words(row, 'before').find((word) => !word.startsWith('-')) ?? entry], folder);
    if (before.status !== 0) return `Node before: ${before.stderr}`;
    const isScript = row.said('script').length > 0;
    const output = path.join('out', isScript ? 'bundle.cjs' : 'bundle.mjs');
    const made = run(program, [entry, '-o', output, ...words(row, 'words')], folder);
    if (made.status !== 0) return `status ${made.status}: ${made.stderr}`;
    const file = path.join(folder, output);
    const text = fs.readFileSync(file, 'utf8');
    const lost = row.said('holds').find((part) => !text.includes(part));
    if (lost !== undefined) return `${JSON.stringify(lost)} is not in the bundle:\n${text}`;
    fs.writeFileSync(file, [...row.said('ahead'), text, ...row.said('behind')].join('\n'));
    const after = run('node', [output], folder);
    if (after.status !== before.status || after.stdout !== before.stdout) {
      return `before: ${before.stdout}after, with status ${after.status}: ${after.stdout}${after.stderr}the bundle:\n${text}`;
    }
    return null;
  } finally {
    fs.rmSync(folder, { recursive: true });
  }
}

function checkError(row) {
  const folder = folderOf(row);
  try {
    const entry = row.said('entry')[0] ?? 'main.mjs';
    const before = row.files.map(([name]) => fs.readFileSync(path.join(folder, name), 'utf8'));
    const made = run(program, [entry, ...words(row, 'words')], folder);
    const status = Number(row.said('status')[0] ?? 1);
    if (made.status !== status) return `status ${made.status}, and not ${status}: ${made.stderr}`;
    const lost = row.said('says').find((text) => !made.stderr.includes(text));
    if (lost !== undefined) return `${JSON.stringify(lost)} is not told: ${made.stderr}`;
    if (made.stdout !== '') return 'something is written';
    const after = row.files.map(([name]) => fs.readFileSync(path.join(folder, name), 'utf8'));
    return after.every((text, at) => text === before[at]) ? null : 'an input is changed';
  } finally {
    fs.rmSync(folder, { recursive: true });
  }
}

// The example of README.md, of which the files lie in examples/hello.
function checkExample() {
  const top = path.resolve(here, '..', '..');
  const readme = fs.readFileSync(path.join(top, 'README.md'), 'utf8');
  const [sources, bundle] = [...readme.matchAll(/```js\n(.*?)```/gs)].map(([, text]) => text);
  const shown = sources.split(/^\/\/ (examples\/.*)\n/m).slice(1);
  for (let at = 0; at < shown.length; at += 2) {
    if (fs.readFileSync(path.join(top, shown[at]), 'utf8').trim() !== shown[at + 1].trim()) return `README.md has another ${shown[at]}`;
  }
  const made = run(program, [shown[0]], top);
  if (made.status !== 0 || made.stdout !== bundle) return `status ${made.status}: ${made.stdout}${made.stderr}`;
  const ran = spawnSync('node', ['--input-type=module'], { input: made.stdout, encoding: 'utf8' });
  return ran.stdout === 'Hello, world!\n' ? null : `the example writes ${ran.stdout}${ran.stderr}`;
}

let passed = 0;
let failed = 0;
function tell(name, fault) {
  if (fault === null) {
    passed += 1;
  } else {
    failed += 1;
    console.log(`command: ${name}: ${fault}`);
  }
}
if (!only) tell('the example', checkExample());
const files = [['programs.txt', (row) => checkProgram(row)], ['real.txt', checkReal], ['errors.txt', checkError]];
for (const [file, check] of files) {
  for (const row of rowsOf(file)) {
    if (only && !row.name.includes(only)) continue;
    tell(row.name, check(row));
  }
}
console.log(`command: ${passed} passed, ${failed} failed`);
process.exitCode = failed === 0 ? 0 : 1;
