// What the command gives people to look at: metafiles beside esbuild's, which esbuild's analysis reads, tables, pictures, and
// bundles that are made again. Usage: node command.mjs PROGRAM PACKAGES
import { spawn, spawnSync } from 'node:child_process';
import fs from 'node:fs';
import { createRequire } from 'node:module';
import os from 'node:os';
import path from 'node:path';

const esbuild = createRequire(import.meta.url)('esbuild');
const program = path.resolve(process.argv[2]);
const packages = path.resolve(process.argv[3], 'node_modules');
let passed = 0;
let failed = 0;
function tell(name, fault) {
  if (fault) {
    failed += 1;
    console.log(`FAILED ${name}: ${fault}`);
  } else {
    passed += 1;
  }
}

const made = fs.realpathSync(fs.mkdtempSync(path.join(os.tmpdir(), 'views-')));
process.on('exit', () => fs.rmSync(made, { recursive: true }));
function folderOf(name, files) {
  const folder = path.join(made, name);
  for (const [file, text] of Object.entries(files)) {
    fs.mkdirSync(path.dirname(path.join(folder, file)), { recursive: true });
    // At one stroke: what watches the file never sees it empty.
    fs.writeFileSync(path.join(made, 'written'), text);
    fs.renameSync(path.join(made, 'written'), path.join(folder, file));
  }
  return folder;
}

const own = {
  'main.js': "import fs from 'node:fs';\nimport { one } from './lib/one.js';\nimport data from './data.json';\nimport old from './old.cjs';\nexport { two as second } from './lib/two.js';\nexport const first = one + data.n + old.k + String(fs.constants);\nexport default () => import('./late.js');\n",
  'lib/one.js': "export const one = 1;\n// a comment that goes\nexport function unused() { return one; }\n",
  'lib/two.js': "import { one } from './one.js';\nexport const two = one + 1;\n",
  'data.json': '{ "n": 3 }\n',
  'old.cjs': "const path = require('node:path');\nexports.k = path.sep;\n",
  'late.js': 'export const late = true;\n',
};

// The imports of an input, each once: esbuild names what is external, and leaves out what it resolves to nothing.
const importsOf = (input) => [...new Set(input.imports.map((it) => `${it.kind} ${it.path} ${it.external ?? false}`))].sort();

function faultOfInputs(ours, theirs) {
  const names = Object.keys(theirs.inputs).sort();
  if (names.join() !== Object.keys(ours.inputs).sort().join()) return `inputs ${Object.keys(ours.inputs).length}, esbuild has ${names.length}`;
  for (const name of names) {
    const [one, other] = [ours.inputs[name], theirs.inputs[name]];
    if (one.bytes !== other.bytes) return `${name} has ${one.bytes} bytes, esbuild tells ${other.bytes}`;
    if ((one.format ?? '') !== (other.format ?? '')) return `${name} is ${one.format}, esbuild tells ${other.format}`;
    if (importsOf(one).join('\n') !== importsOf(other).join('\n')) return `${name} imports ${importsOf(one)}, esbuild tells ${importsOf(other)}`;
  }
  return null;
}

function faultOfOutput(folder, ours, theirs) {
  const [[name, output], ...more] = Object.entries(ours.outputs);
  const [other] = Object.values(theirs.outputs);
  if (more.length > 0 || name !== 'out/ours.mjs') return `outputs ${Object.keys(ours.outputs)}`;
  if (output.bytes !== fs.statSync(path.join(folder, name)).size) return `${output.bytes} bytes`;
  if (output.entryPoint !== other.entryPoint) return `begins with ${output.entryPoint}`;
  // What `export *` of a CommonJS module gives, esbuild does not tell.
  const begin = ours.inputs[output.entryPoint];
  const asksCommonJs = begin.imports.some((it) => ours.inputs[it.path]?.format === 'cjs');
  const told = asksCommonJs ? output.exports.filter((it) => other.exports.includes(it)) : output.exports;
  if ([...told].sort().join() !== [...other.exports].sort().join()) return `exports ${output.exports}, esbuild tells ${other.exports}`;
  const sum = Object.values(output.inputs).reduce((all, it) => all + it.bytesInOutput, 0);
  if (sum > output.bytes || sum < output.bytes / 2) return `${sum} of ${output.bytes} bytes are of inputs`;
  for (const input of Object.keys(output.inputs)) if (!(input in ours.inputs)) return `${input} is no input`;
  return null;
}

async function judge(name, folder) {
  const words = ['main.js', '--main-fields=module,main'];
  const run = spawnSync(program, [...words, '-o', 'out/ours.mjs', '--metafile=out/ours.json', '--graph=out/ours.svg', '--analyze'], { cwd: folder, encoding: 'utf8' });
  if (run.status !== 0) return tell(name, run.stderr);
  const beside = spawnSync('esbuild', [...words, '--bundle', '--format=esm', '--platform=node', '--tree-shaking=false', '--outfile=out/theirs.mjs', '--metafile=out/theirs.json', '--log-level=error'], { cwd: folder, encoding: 'utf8' });
  if (beside.status !== 0) return tell(name, beside.stderr);
  const [ours, theirs] = ['ours', 'theirs'].map((it) => JSON.parse(fs.readFileSync(path.join(folder, `out/${it}.json`), 'utf8')));
  tell(`${name}, inputs`, faultOfInputs(ours, theirs));
  tell(`${name}, outputs`, faultOfOutput(folder, ours, theirs));
  const analysis = await esbuild.analyzeMetafile(ours);
  const largest = Object.entries(ours.outputs['out/ours.mjs'].inputs).sort((a, b) => b[1].bytesInOutput - a[1].bytesInOutput)[0][0];
  tell(`${name}, read by esbuild`, analysis.includes('out/ours.mjs') && analysis.includes(largest) ? null : analysis);
  tell(`${name}, table`, run.stderr.includes('100.0%') && run.stderr.includes('\u2588') ? null : run.stderr);
  tell(`${name}, picture`, fs.readFileSync(path.join(folder, 'out/ours.svg'), 'utf8').endsWith('</svg>\n') ? null : 'no picture');
  return undefined;
}

const pause = (milliseconds) => new Promise((go) => { setTimeout(go, milliseconds); });

// A run with --watch in a folder of these files.
function watchIn(name, files) {
  const folder = folderOf(name, files);
  const at = (file) => path.join(folder, file);
  const run = spawn(program, ['main.js', '-o', 'out.mjs', '--watch'], { cwd: folder });
  const ended = new Promise((go) => { run.on('exit', (status, signal) => go(signal)); });
  let told = '';
  run.stderr.on('data', (data) => { told += data; });
  return {
    at,
    told: () => told,
    times: (words) => told.split(words).length - 1,
    text: () => (fs.existsSync(at('out.mjs')) ? fs.readFileSync(at('out.mjs'), 'utf8') : ''),
    write: (file, text) => folderOf(name, { [file]: text }),
    remove: (file) => fs.rmSync(at(file)),
    // The seconds of the processor that it has taken.
    seconds: () => fs.readFileSync(`/proc/${run.pid}/stat`, 'utf8').split(') ')[1].split(' ').slice(11, 13).reduce((sum, it) => sum + it / 100, 0),
    end: () => { run.kill('SIGINT'); return ended; },
    async until(what, condition) {
      for (let turn = 0; turn < 600; turn += 1) {
        if (condition()) return tell(`${name}: ${what}`, null);
        await pause(50);
      }
      return tell(`${name}: ${what}`, `nothing of it in 30 seconds: ${told}`);
    },
  };
}

async function judgeWatch() {
  const it = watchIn('watch', { 'main.js': "import { a } from './a.js';\nconsole.log(a);\n", 'a.js': 'export const a = 1;\n' });
  const { text, times, told, write, remove, until } = it;
  await until('begins', () => text().includes('const a = 1') && times('watching 2 files') === 1);
  write('a.js', 'export const a = 22;\n');
  await until('a change', () => text().includes('const a = 22') && times('watching') === 2);
  tell('watch: what changed is told', told().includes('changed: a.js\n') ? null : told());
  write('a.js', 'export const a = ;\n');
  await until('an error', () => times('error:') === 1 && times('watching') === 3);
  tell('watch: the bundle stays', text().includes('const a = 22') ? null : text());
  await pause(1000);
  tell('watch: an error is told once', times('error:') === 1 ? null : told());
  write('a.js', "import { b } from './b.js';\nexport const a = b;\n");
  await until('a file that is not there', () => times('error:') === 2 && times('watching') === 4);
  write('b.js', 'export const b = 333;\n');
  await until('mended', () => text().includes('333') && times('watching') === 5);
  remove('b.js');
  await until('a file that goes', () => times('error:') === 3 && times('watching') === 6);
  write('b.js', 'export const b = 4444;\n');
  await until('and comes', () => text().includes('4444') && times('watching') === 7);
  remove('main.js');
  await until('the entry goes', () => times('error:') === 4 && times('watching') === 8);
  write('main.js', "import { a } from 'package';\nconsole.log(a);\n");
  await until('a package that is not there', () => times('error:') === 5 && times('watching') === 9);
  write('node_modules/package/index.js', "exports.a = 'by the index';\n");
  await until('a package comes', () => text().includes('by the index') && times('watching') === 10);
  write('node_modules/package/other.js', "exports.a = 'by the field';\n");
  await pause(500);
  tell('watch: a file that none asks for', times('watching') === 10 ? null : told());
  write('node_modules/package/package.json', '{ "main": "other.js" }\n');
  await until('its package.json comes', () => text().includes('by the field') && times('watching') === 11);
  write('node_modules/package/package.json', '{ "main": "other.js", "exports": "./index.js" }\n');
  await until('its package.json changes', () => text().includes('by the index') && times('watching') === 12);
  tell('watch: ends on SIGINT', (await it.end()) === 'SIGINT' ? null : 'it ended otherwise');
}

// An entry that is a link, which is made to lead to another file: the link is watched, and the file.
async function judgeWatchedLink() {
  const it = watchIn('link', { 'one.js': 'console.log(1111);\n', 'two.js': 'console.log(2222);\n' });
  await it.until('no entry', () => it.times('watching 0 files') === 1);
  // Time and size tell the two files not apart.
  for (const file of ['one.js', 'two.js']) fs.utimesSync(it.at(file), 1e9, 1e9);
  fs.symlinkSync('one.js', it.at('main.js'));
  await it.until('comes', () => it.text().includes('1111') && it.times('watching 2 files') === 1);
  it.remove('main.js');
  fs.symlinkSync('two.js', it.at('main.js'));
  await it.until('leads elsewhere', () => it.text().includes('2222'));
  await it.end();
}

// Files that change at any time, also while they are bundled: the last text of each is bundled at the end, and each bundle
// that is read is a whole one. While nothing changes, next to no time is taken.
async function judgeWatchedRaces() {
  const files = { 'main.js': '' };
  const filler = '\'a text of some length\', '.repeat(200);
  for (let at = 0; at < 300; at += 1) {
    files['main.js'] += `export * from './m${at}.js';\n`;
    files[`m${at}.js`] = `export const v${at} = 0;\nexport const filler${at} = [${filler}];\n`;
  }
  const it = watchIn('races', files);
  await it.until('begins', () => it.times('watching 301 files') === 1);
  const last = new Map();
  let torn = 0;
  for (let turn = 1; turn <= 60; turn += 1) {
    await pause(Math.random() * 200);
    const at = turn % 7;
    last.set(at, `v${at} = ${turn};`);
    it.write(`m${at}.js`, `export const ${last.get(at)}\n`);
    if (!it.text().endsWith('};\n')) torn += 1;
  }
  const is_last = () => [...last.values()].every((text) => it.text().includes(text));
  await it.until('the last change is bundled', is_last);
  tell('races: bundles are whole', torn === 0 ? null : `${torn} of 60 are not`);
  await pause(500);
  const before = it.seconds();
  await pause(2000);
  tell('races: rests', it.seconds() - before < 0.4 ? null : `${it.seconds() - before} s of 2 s`);
  await it.end();
  // Where the run is ended at any time, the bundle is the old or the new one.
  for (let turn = 0; turn < 10; turn += 1) {
    const run = spawn(program, ['main.js', '-o', 'out.mjs'], { cwd: path.dirname(it.at('main.js')) });
    const ended = new Promise((go) => { run.on('exit', go); });
    await pause(Math.random() * 400);
    run.kill('SIGINT');
    await ended;
    if (!it.text().endsWith('};\n')) torn += 1;
  }
  tell('races: a bundle stays whole on SIGINT', torn === 0 ? null : `${torn} of 10 are not`);
}

await judge('modules of all kinds', folderOf('own', own));
for (const name of ['lodash-es', 'd3', 'three', 'rxjs']) {
  const folder = folderOf(name, { 'main.js': `export * from '${name === 'lodash-es' ? 'lodash-es/lodash.js' : name}';\n` });
  fs.symlinkSync(packages, path.join(folder, 'node_modules'));
  await judge(name, folder);
}
await judgeWatch();
await judgeWatchedLink();
await judgeWatchedRaces();
console.log(`command: ${passed} passed, ${failed} failed`);
process.exit(failed ? 1 : 0);
