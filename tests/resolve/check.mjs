// Usage: check.mjs PROGRAM [--list] [--esbuild ESBUILD]. Makes the folders of cases.mjs and bundling.mjs, and compares
// what PROGRAM answers there with what Node does, and with what esbuild has answered (esbuild.json). With --list each
// answer is printed; with --esbuild that program is asked, and what it answers is written.

import { execFileSync } from 'node:child_process';
import { mkdirSync, mkdtempSync, readFileSync, realpathSync, rmSync, symlinkSync, writeFileSync } from 'node:fs';
import { tmpdir } from 'node:os';
import { dirname, join } from 'node:path';
import { fileURLToPath } from 'node:url';
import { trees } from './cases.mjs';
import * as bundling from './bundling.mjs';
import { differences } from './differences.mjs';
import { askEsbuild } from './esbuild.mjs';
import * as hostile from './hostile.mjs';

const here = dirname(fileURLToPath(import.meta.url));
const [program, ...words] = process.argv.slice(2);
const list = words.includes('--list');
const esbuild = words[words.indexOf('--esbuild') + 1];
const top = realpathSync(mkdtempSync(join(tmpdir(), 'resolve-')));
process.on('exit', () => rmSync(top, { recursive: true, force: true }));

// The kinds of error, by the names of the program's, as Node names them.
const codes = {
  NotExported: 'ERR_PACKAGE_PATH_NOT_EXPORTED',
  ImportNotDefined: 'ERR_PACKAGE_IMPORT_NOT_DEFINED',
  InvalidTarget: 'ERR_INVALID_PACKAGE_TARGET',
  MixedKeys: 'ERR_INVALID_PACKAGE_CONFIG',
  NumericCondition: 'ERR_INVALID_PACKAGE_CONFIG',
  Package: 'ERR_INVALID_PACKAGE_CONFIG',
  InvalidSubpath: 'ERR_INVALID_MODULE_SPECIFIER',
  InvalidImportName: 'ERR_INVALID_MODULE_SPECIFIER',
  PackageName: 'ERR_INVALID_MODULE_SPECIFIER',
  Separator: 'ERR_INVALID_MODULE_SPECIFIER',
  Malformed: 'URIError',
  Nul: 'ERR_INVALID_ARG_VALUE',
  Invalid: 'ERR_INVALID_ARG_VALUE',
  Host: 'ERR_INVALID_FILE_URL_HOST',
  NoImports: 'ERR_PACKAGE_IMPORT_NOT_DEFINED',
  Folder: 'ERR_UNSUPPORTED_DIR_IMPORT',
  UnknownBuiltin: 'ERR_UNKNOWN_BUILTIN_MODULE',
  NotFound: 'ERR_MODULE_NOT_FOUND',
};

function makeTree({ name, files, links = {} }) {
  const folder = join(top, name);
  for (const [path, text] of Object.entries(files)) {
    mkdirSync(dirname(join(folder, path)), { recursive: true });
    writeFileSync(join(folder, path), text);
  }
  for (const [path, target] of Object.entries(links)) {
    mkdirSync(dirname(join(folder, path)), { recursive: true });
    symlinkSync(target, join(folder, path));
  }
}

function askNode(requests) {
  const file = join(top, 'requests');
  writeFileSync(file, requests.map((request) => JSON.stringify(request)).join('\n'));
  const words = ['--experimental-import-meta-resolve', '--no-warnings', join(here, 'node.mjs'), file];
  const text = execFileSync(process.execPath, words, { encoding: 'utf8', cwd: top, maxBuffer: 1 << 28 });
  return text.trimEnd().split('\n').map((line) => JSON.parse(line));
}

function askProgram(settings, requests) {
  const input = requests.map((request) => [settings, ...request].join('\x1f') + '\n').join('');
  const text = execFileSync(program, { input, encoding: 'utf8', maxBuffer: 1 << 28, timeout: 120000 });
  return text.trimEnd().split('\n').map((line) => {
    const [word, ...rest] = line.split('\x1f');
    if (word === 'file') return ['file', rest[0], rest[1]];
    if (word !== 'error') return [word, rest[0]];
    return ['error', codes[rest[0]] ?? rest[0]];
  });
}

// Names of errors that `require` has for what `import` calls otherwise.
const alike = {
  MODULE_NOT_FOUND: ['ERR_MODULE_NOT_FOUND', 'ERR_UNKNOWN_BUILTIN_MODULE'],
  SyntaxError: ['ERR_INVALID_PACKAGE_CONFIG'],
};
const same = (ours, judges) =>
  JSON.stringify(ours) === JSON.stringify(judges) ||
  (ours[0] === 'error' && judges[0] === 'error' && (alike[judges[1]] ?? []).includes(ours[1]));

const short = (answer) => JSON.stringify(answer).replaceAll(top, '');

let failed = 0;
const used = new Set();

// Compares an answer with the judge's; one that differs on purpose stands in differences.mjs, with both.
function compare(key, ours, judges) {
  if (list) console.log(key, short(ours));
  const known = differences[key];
  if (known) used.add(key);
  if (known ? short(ours) === JSON.stringify(known.here) && short(judges) === JSON.stringify(known.judge) : same(ours, judges)) {
    return;
  }
  failed++;
  console.log(`${key}\n  here  ${short(ours)}\n  judge ${short(judges)}`);
}

function keyOf(settings, folder, [loader, importer, specifier]) {
  return `${settings} ${loader} ${importer.slice(folder.length + 1)} ${specifier.replace(top, '@TOP')}`;
}

const inBoth = (folder, requests) =>
  requests.flatMap(([importer, specifier]) =>
    ['import', 'require'].map((loader) => [loader, join(folder, importer), specifier.replace('@TOP', top)]),
  );

let asked = 0;
const all = trees();
for (const tree of all) makeTree(tree);
for (const tree of all) {
  const folder = join(top, tree.name);
  const requests = inBoth(folder, tree.requests);
  const nodes = askNode(requests);
  const ours = askProgram('node', requests);
  asked += requests.length;
  requests.forEach((request, i) => compare(keyOf(tree.name, folder, request), ours[i], nodes[i]));
}

let bundled = 0;
makeTree(bundling.tree);
const folder = join(top, bundling.tree.name);
const answersFile = join(here, 'esbuild.json');
const answers = esbuild && words.includes('--esbuild') ? {} : JSON.parse(readFileSync(answersFile, 'utf8'));
for (const settings of ['bundle', 'browser']) {
  const requests = inBoth(folder, bundling.requests);
  if (words.includes('--esbuild')) {
    const told = askEsbuild(esbuild, settings, requests);
    requests.forEach((request, i) => (answers[keyOf(settings, folder, request)] = JSON.parse(short(told[i]))));
  }
  const ours = askProgram(settings, requests);
  bundled += requests.length;
  requests.forEach((request, i) => {
    const key = keyOf(settings, folder, request);
    const answer = ours[i][0] === 'empty' ? ['empty'] : JSON.parse(short(ours[i]));
    compare(key, answer, answers[key]);
  });
}
if (words.includes('--esbuild')) {
  const lines = Object.entries(answers).map(([key, answer]) => `  ${JSON.stringify(key)}: ${JSON.stringify(answer)}`);
  writeFileSync(answersFile, `{\n${lines.join(',\n')}\n}\n`);
}
const hostileFiles = Object.entries(hostile.packages).flatMap(([name, text]) => [
  [`node_modules/${name}/package.json`, text],
  [`node_modules/${name}/index.js`, '// a file\n'],
]);
makeTree({ name: 'hostile', files: Object.fromEntries(hostileFiles) });
const hostileRequests = hostile.requests.map(([specifier]) => ['import', join(top, 'hostile/a.js'), specifier]);
askProgram('node', hostileRequests).forEach((answer, i) => {
  const [specifier, word, code] = hostile.requests[i];
  if (answer[0] === word && (word === 'file' || answer[1] === code)) return;
  failed++;
  console.log(`hostile ${specifier.slice(0, 60)}: ${short(answer).slice(0, 200)}`);
});

for (const key of Object.keys(differences)) {
  if (used.has(key)) continue;
  failed++;
  console.log(`no request: ${key}`);
}
console.log(`resolve: ${asked} beside Node ${process.version}, ${bundled} beside esbuild, ${used.size} differ on purpose, ${hostile.requests.length} hostile: ${failed} fail`);
process.exit(failed ? 1 : 0);
