// check.mjs PROGRAM: outputs are written whole or not at all. The program writes what its lines say: here to folders, of
// which Node then tells what stands in them; and to a file system in memory, of which each call fails in turn.

import { execFileSync, spawnSync } from 'node:child_process';
import {
  chmodSync, existsSync, linkSync, lstatSync, mkdirSync, mkdtempSync, readFileSync, readdirSync, readlinkSync, realpathSync,
  rmSync, statSync, symlinkSync, writeFileSync,
} from 'node:fs';
import { tmpdir } from 'node:os';
import { dirname, join } from 'node:path';

const [program] = process.argv.slice(2);
const top = realpathSync(mkdtempSync(join(tmpdir(), 'files-')));
process.on('exit', () => rmSync(top, { recursive: true, force: true }));

let passed = 0;
let failed = 0;
function tell(is, name, seen) {
  if (is) passed++;
  else {
    failed++;
    console.log(`FAILED ${name}: ${seen}`);
  }
}

const lines = (script) => script.map((words) => words.join('\x1f')).join('\n') + '\n';

// In memory: what stands there at first, what is written, and what stands there then.
const inMemory = {
  'one file': [[], [], [['out.js', 'a']], { 'out.js': 'file a' }],
  'a file in new folders': [[], [], [['a/b/out.js', 'a']], { a: 'folder', 'a/b': 'folder', 'a/b/out.js': 'file a' }],
  'a file that is replaced': [[['file', 'out.js', 'old']], [], [['out.js', 'new']], { 'out.js': 'file new' }],
  'three files, of which two are replaced': [
    [['file', 'a.js', 'old a'], ['folder', 'd'], ['file', 'd/c.js', 'old c']], [],
    [['a.js', 'a'], ['b/b.js', 'b'], ['d/c.js', 'c']],
    { 'a.js': 'file a', b: 'folder', 'b/b.js': 'file b', d: 'folder', 'd/c.js': 'file c' },
  ],
  'a device, and a file': [[['device', 'tty']], [], [['tty', 'a'], ['b.js', 'b']], { tty: 'device a', 'b.js': 'file b' }],
  'a name that is taken': [
    [['file', '.gutsirava-0', 'x']], [], [['a.js', 'a']], { '.gutsirava-0': 'file x', 'a.js': 'file a' },
  ],
};

function listing(entries) {
  const all = { '.': 'folder', ...entries };
  return Object.keys(all).sort().map((path) => `${path}=${all[path]};`).join('');
}

for (const [name, [standing, inputs, outputs, wanted]] of Object.entries(inMemory)) {
  const input = lines([
    ['memory'],
    ...standing.map(([word, path, text]) => [word, path, text ?? '']),
    ...inputs.map((path) => ['input', path]),
    ...outputs.map(([path, text]) => ['output', path, text]),
  ]);
  const told = execFileSync(program, { input, encoding: 'utf8' }).trimEnd().split('\n').map((line) => line.split('\x1f'));
  const before = Object.fromEntries(
    standing.map(([word, path, text]) => [path, word === 'file' ? `file ${text}` : word]),
  );
  // A device that was written to is not undone; the name by which a replaced file was kept may not be removable.
  const alike = (seen, entries) =>
    seen.replace(/[^;]*\.gutsirava-\d+-old=[^;]*;/, (kept) => (entries === wanted ? '' : kept)) === listing(entries) ||
    seen.replace('tty=device a', 'tty=device') === listing(entries);
  const failures = told.filter(([, answer]) => answer !== 'ok').length;
  for (const [call, answer, seen] of told) {
    tell(alike(seen, answer === 'ok' ? wanted : before), `memory, ${name}, call ${call} fails`, `${answer}: ${seen}`);
  }
  tell(told[0][1] === 'ok' && failures > 2, `memory, ${name}`, `${failures} of ${told.length} calls tell`);
}

// In folders.
function makeFolder(name, files) {
  const folder = join(top, name.replaceAll(/\W+/g, '-'));
  mkdirSync(folder);
  for (const [path, text] of Object.entries(files)) {
    mkdirSync(dirname(join(folder, path)), { recursive: true });
    writeFileSync(join(folder, path), text);
  }
  return folder;
}

function all(folder) {
  const found = {};
  for (const entry of readdirSync(folder, { recursive: true, withFileTypes: true })) {
    const path = join(entry.parentPath ?? entry.path, entry.name);
    const name = path.slice(folder.length + 1);
    found[name] = entry.isDirectory() ? '/' : entry.isSymbolicLink() ? `-> ${readlinkSync(path)}` : readFileSync(path, 'utf8');
  }
  return JSON.stringify(Object.entries(found).sort());
}

function write(folder, script, prefix = '') {
  const run = spawnSync('sh', ['-c', `${prefix} exec "$0"`, program], { cwd: folder, input: lines(script), encoding: 'utf8' });
  return [run.status, run.stdout.trim(), run.stderr.trim()];
}

function look(name, files, script, { wanted, error, prepare = () => {}, prefix }) {
  const folder = makeFolder(name, files);
  prepare(folder);
  const before = all(folder);
  const [status, said, message] = write(folder, script(folder), prefix);
  if (error !== undefined) {
    tell(status === 1 && message === error && all(folder) === before, name, `${status} ${said} ${message} ${all(folder)}`);
    return folder;
  }
  const after = makeFolder(`${name} wanted`, wanted);
  prepare(after, true);
  tell(status === 0 && said === 'ok' && all(folder) === all(after), name, `${status} ${said} ${message} ${all(folder)}`);
  return folder;
}

look('a new file', {}, () => [['output', 'out.mjs', 'text']], { wanted: { 'out.mjs': 'text' } });
look('an empty file', {}, () => [['output', './out.mjs', '']], { wanted: { 'out.mjs': '' } });
look('new folders', {}, () => [['output', 'a/./b//c/out.mjs', 'text'], ['output', 'a/b/d.mjs', 'd']],
  { wanted: { 'a/b/c/out.mjs': 'text', 'a/b/d.mjs': 'd' } });
look('by the whole path', {}, (folder) => [['output', `${folder}/x/out.mjs`, 'text']], { wanted: { 'x/out.mjs': 'text' } });
look('a large file', {}, () => [['large', 'out.mjs', '3000000']], { wanted: { 'out.mjs': 'x'.repeat(3000000) } });

const kept = look('a file that runs', { 'cli.js': 'old' }, () => [['output', 'cli.js', 'new']],
  { wanted: { 'cli.js': 'new' }, prepare: (folder) => chmodSync(join(folder, 'cli.js'), 0o755) });
tell((statSync(join(kept, 'cli.js')).mode & 0o777) === 0o755, 'a file that runs still does', 'its mode');

look('an input', { 'a.js': 'a' }, (folder) => [['input', `${folder}/a.js`], ['output', './x/../a.js', 'new'], ['output', 'b.js', 'b']],
  { error: './x/../a.js is an input, and would be overwritten', prepare: (folder) => mkdirSync(join(folder, 'x')) });
look('an input by a link', { 'a.js': 'a' }, (folder) => [['input', `${folder}/a.js`], ['output', 'link.js', 'new']],
  { error: 'link.js is an input, and would be overwritten', prepare: (folder) => symlinkSync('a.js', join(folder, 'link.js')) });
look('an input in a folder that is a link', { 'd/a.js': 'a' }, (folder) => [['input', `${folder}/d/a.js`], ['output', 'e/a.js', 'new']],
  { error: 'e/a.js is an input, and would be overwritten', prepare: (folder) => symlinkSync('d', join(folder, 'e')) });
const hard = look('another name of an input', { 'a.js': 'a' }, (folder) => [['input', `${folder}/a.js`], ['output', 'b.js', 'new']],
  { wanted: { 'a.js': 'a', 'b.js': 'new' }, prepare: (folder, isWanted) => isWanted || linkSync(join(folder, 'a.js'), join(folder, 'b.js')) });
tell(readFileSync(join(hard, 'a.js'), 'utf8') === 'a', 'another name of an input: the input stays', 'changed');

look('one place twice', {}, () => [['output', 'a.js', '1'], ['output', './a.js', '2']], { error: 'two outputs go to ./a.js' });
look('one place twice by a link', { 'a.js': 'a' }, () => [['output', 'a.js', '1'], ['output', 'b.js', '2']],
  { error: 'two outputs go to b.js', prepare: (folder) => symlinkSync('a.js', join(folder, 'b.js')) });
look('a folder', { 'd/a.js': 'a' }, () => [['output', 'b.js', 'b'], ['output', 'd', '1']], { error: 'd is a folder' });
look('a slash at the end', {}, () => [['output', 'd/', '1']], { error: 'd/ is a folder' });
look('a file for a folder', { 'a.js': 'a' }, () => [['output', 'new/b.js', '1'], ['output', 'a.js/b.js', '1']],
  { error: 'a.js/b.js: Not a directory (os error 20)' });
const linked = look('a link', { 'd/a.js': 'old' }, () => [['output', 'link.js', 'new']],
  { wanted: { 'd/a.js': 'new' }, prepare: (folder) => symlinkSync('d/a.js', join(folder, 'link.js')) });
tell(lstatSync(join(linked, 'link.js')).isSymbolicLink(), 'a link stays one', 'it is gone');

look('a full device', { 'a.js': 'a' }, () => [['output', 'b/b.js', 'b'], ['output', '/dev/full', 'x'], ['output', 'a.js', 'new']],
  { error: '/dev/full: No space left on device (os error 28)' });
look('a device', {}, () => [['output', '/dev/null', 'x'], ['output', 'a.js', 'a']], { wanted: { 'a.js': 'a' } });
tell(existsSync('/dev/null') && lstatSync('/dev/null').isCharacterDevice(), 'a device stays one', 'it is gone');
look('a file that grows too large', { 'a.js': 'a' }, () => [['output', 'new/b.js', 'b'], ['large', 'c.js', '3000000']],
  { error: 'c.js: File too large (os error 27)', prefix: 'trap "" XFSZ; ulimit -f 100;' });

console.log(`files: ${passed} passed, ${failed} failed`);
process.exit(failed ? 1 : 0);
