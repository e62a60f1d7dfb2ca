// The source maps of bundles: by node-source-map for identifiers drawn by chance, and by Node for what is thrown.
// Usage: node check.mjs PROGRAM PACKAGES WANTED: WANTED is how many checks there are to be.
import { spawnSync } from 'node:child_process';
import fs from 'node:fs';
import { createRequire } from 'node:module';
import os from 'node:os';
import path from 'node:path';

const require = createRequire(import.meta.url);
const packages = path.resolve(process.argv[3], 'node_modules');
const { SourceMapConsumer } = require('source-map');
const acorn = require(path.join(packages, 'acorn'));
const program = path.resolve(process.argv[2]);
const wanted = Number(process.argv[4]);
const here = import.meta.dirname ?? path.dirname(new URL(import.meta.url).pathname);
const DRAWN = 1000;
// How many of the identifiers of a bundle are told at least, and how much more than a bundle it may take to make one with a map.
const LEAST_TOLD = 0.9;
const MOST_COST = 1.25;

let passed = 0;
let failed = 0;
function tell(name, fault) {
  if (fault === null) {
    passed += 1;
  } else {
    failed += 1;
    console.log(`maps: ${name}: ${fault}`);
  }
}

const run = (command, words, folder, timeout = 120000) => spawnSync(command, words, { cwd: folder, encoding: 'utf8', timeout });

function inFolder(files, act) {
  const folder = fs.realpathSync(fs.mkdtempSync(path.join(os.tmpdir(), 'maps-')));
  try {
    for (const [name, text] of files) {
      fs.mkdirSync(path.dirname(path.join(folder, name)), { recursive: true });
      fs.writeFileSync(path.join(folder, name), text);
    }
    return act(folder);
  } finally {
    fs.rmSync(folder, { recursive: true });
  }
}

// Numbers by chance, the same in each run (mulberry32).
function chance(seed) {
  let state = seed;
  return (below) => {
    state = (state + 0x6d2b79f5) | 0;
    let t = Math.imul(state ^ (state >>> 15), 1 | state);
    t = (t + Math.imul(t ^ (t >>> 7), 61 | t)) ^ t;
    return ((t ^ (t >>> 14)) >>> 0) % below;
  };
}

// All identifiers of a text with the types of the nodes around each, from the inside out.
function identifiersOf(text) {
  const tree = acorn.parse(text, { ecmaVersion: 'latest', sourceType: 'module', locations: true, allowHashBang: true });
  const found = [];
  const visit = (node, around) => {
    if (Array.isArray(node)) {
      node.forEach((inner) => visit(inner, around));
    } else if (node && typeof node.type === 'string') {
      if (node.type === 'Identifier') found.push({ name: node.name, at: node.loc.start, around, start: node.start });
      const inside = { type: node.type, out: around, node };
      for (const [key, value] of Object.entries(node)) {
        // A property with its name alone has it twice.
        if (node.shorthand && key === 'key') continue;
        if (value && typeof value === 'object' && key !== 'loc') visit(value, inside);
      }
    }
  };
  visit(tree.body, null);
  return { tree, found };
}

// The nodes around an identifier: without exports, and with the variable that an `export default` of an expression becomes.
function way(identifier) {
  const types = [];
  for (let at = identifier.around; at; at = at.out) {
    if (at.type === 'ExportDefaultDeclaration' && !/^(Function|Class)Declaration$/.test(at.node.declaration.type)) {
      types.push('VariableDeclarator', 'VariableDeclaration');
    } else if (!/^Export/.test(at.type)) {
      types.push(at.type.replace(/^(Function|Class)(Declaration|Expression)$/, '$1'));
    }
  }
  return types.join(' ');
}

// What stands in a bundle around the statements of a CommonJS module.
const LOADED = 'BlockStatement Function CallExpression VariableDeclarator VariableDeclaration';

// The nodes that may stand around an identifier in a bundle: those of its source, or a read of an export in the place of that
// of a namespace's property, or of a property in the place of that of an import.
function waysOf(original) {
  const own = way(original);
  const isProperty = original.around?.type === 'MemberExpression' && original.around.node.property.start === original.start;
  const read = isProperty ? [own, own.slice('MemberExpression '.length)] : [own, `MemberExpression ${own}`.trim()];
  // The key, where a property with its name alone and a default has another name in the bundle.
  if (original.around?.type === 'AssignmentPattern' && original.around.out?.node.shorthand) read.push(own.slice('AssignmentPattern '.length));
  return read.flatMap((one) => [one, `${one} ${LOADED}`.trim()]);
}

const key = ({ line, column }) => `${line}:${column}`;

// Whether an identifier stands at a place of a text.
function standsAt(lines, { line, column }, name) {
  const rest = lines[line - 1]?.slice(column) ?? '';
  return rest.startsWith(name) && !/^[\p{ID_Continue}$\u200c\u200d]/u.test(rest.slice(name.length));
}

// The maps of a package: what node-source-map reads in it for identifiers drawn by chance.
function checkPackage(name, text, words) {
  inFolder([['src/main.mjs', text]], (folder) => {
    fs.symlinkSync(packages, path.join(folder, 'node_modules'));
    const made = run(program, ['src/main.mjs', '-o', 'out/bundle.mjs', '--sourcemap', ...words], folder);
    if (made.status !== 0) return tell(name, `status ${made.status}: ${made.stderr}`);
    const bundle = fs.readFileSync(path.join(folder, 'out/bundle.mjs'), 'utf8');
    const map = JSON.parse(fs.readFileSync(path.join(folder, 'out/bundle.mjs.map'), 'utf8'));
    tell(`${name}: the link`, bundle.endsWith('\n//# sourceMappingURL=bundle.mjs.map\n') ? null : bundle.slice(-80));
    tell(`${name}: sources`, wrongSource(map, path.join(folder, 'out')));
    checkIdentifiers(name, bundle, map);
  });
}

// What a map costs: the instructions of a run with one, beside those of a run without (callgrind).
function checkCost(name, text) {
  inFolder([['main.mjs', text]], (folder) => {
    fs.symlinkSync(packages, path.join(folder, 'node_modules'));
    const instructions = (...words) => {
      const all = ['--tool=callgrind', '--callgrind-out-file=/dev/null', program, 'main.mjs', '-o', 'out/bundle.mjs', ...words];
      const made = run('valgrind', all, folder, 900000);
      return made.status === 0 ? Number(/Collected : (\d+)/.exec(made.stderr)?.[1]) : NaN;
    };
    const [plain, mapped] = [instructions(), instructions('--sourcemap')];
    tell(`${name}: the cost`, mapped <= MOST_COST * plain ? null : `${plain} instructions, and ${mapped} with a map`);
    console.log(`maps: ${name}: ${(plain / 1e6).toFixed(0)} million instructions, ${(mapped / 1e6).toFixed(0)} with a map`);
  });
}

// A source of a map that is not the text of its file.
function wrongSource(map, folder) {
  if (map.version !== 3 || map.sources.length === 0) return `version ${map.version}, ${map.sources.length} sources`;
  const at = map.sources.findIndex((source, number) =>
    fs.readFileSync(path.resolve(folder, source), 'utf8') !== map.sourcesContent[number]);
  return at < 0 ? null : `${map.sources[at]} has another content`;
}

function checkIdentifiers(name, bundle, map) {
  const exact = new Map();
  new SourceMapConsumer(map).eachMapping((mapping) => {
    // What comes from no source has the source `.` here, and no line.
    if (mapping.originalLine === null) return;
    exact.set(key({ line: mapping.generatedLine, column: mapping.generatedColumn }), mapping);
  });
  const { tree, found } = identifiersOf(bundle);
  tell(`${name}: whole statements`, partlyTold(tree, found, exact));
  const told = found.filter((identifier) => exact.has(key(identifier.at)));
  tell(`${name}: most identifiers`, told.length >= LEAST_TOLD * found.length ? null : `${told.length} of ${found.length} are told`);
  const texts = new Map(map.sources.map((source, at) => [source, originalOf(map.sourcesContent[at])]));
  const draw = chance(told.length);
  const wrong = [];
  for (let number = 0; number < DRAWN; number += 1) {
    const identifier = told[draw(told.length)];
    const mapping = exact.get(key(identifier.at));
    const original = texts.get(mapping.source);
    const place = { line: mapping.originalLine, column: mapping.originalColumn };
    const wanted = mapping.name ?? identifier.name;
    const there = original.identifiers().get(key(place));
    if (!standsAt(original.lines, place, wanted) || there === undefined) {
      wrong.push(`${identifier.name} at ${key(identifier.at)} is no ${wanted} at ${mapping.source}:${key(place)}`);
    } else if (!waysOf(there).includes(way(identifier))) {
      wrong.push(`${identifier.name} at ${key(identifier.at)} stands otherwise than ${mapping.source}:${key(place)}: ${way(identifier)} | ${way(there)}`);
    }
  }
  tell(`${name}: ${DRAWN} identifiers`, wrong.length === 0 ? null : `${wrong.length} wrong: ${wrong.slice(0, 5).join('\n')}`);
  console.log(`maps: ${name}: ${map.sources.length} sources, ${found.length} identifiers, ${told.length} told, ${map.names.length} names; of ${DRAWN} ${wrong.length} wrong`);
}

// A statement of the bundle's top some identifiers of which are told, and others are not.
function partlyTold(tree, found, exact) {
  let at = 0;
  for (const statement of tree.body) {
    const inside = [];
    for (; at < found.length && found[at].start < statement.end; at += 1) inside.push(found[at]);
    const untold = inside.filter((identifier) => !exact.has(key(identifier.at)));
    if (untold.length === 0 || untold.length === inside.length || isFront(statement, untold)) continue;
    return `${untold.length} of ${inside.length} identifiers are not told, as ${untold[0].name} at ${key(untold[0].at)}`;
  }
  return null;
}

// Whether what is not told of a statement is only what stands before the statements of CommonJS modules, or the name of a
// default.
function isFront(statement, untold) {
  if (statement.type === 'VariableDeclaration' && statement.declarations.length === 1) {
    const { id, init } = statement.declarations[0];
    if (untold.length === 1 && untold[0].start === id.start) return true;
    const loaded = init?.type === 'CallExpression' ? init.arguments[0] : null;
    return loaded?.type === 'FunctionExpression' && untold.every(({ start }) => start < loaded.body.start);
  }
  return untold.length === 1 && untold[0].start === statement.id?.start;
}

// A source, with its identifiers by their places.
function originalOf(text) {
  let known = null;
  const identifiers = () => {
    known ??= new Map(readAs(text).map((identifier) => [key(identifier.at), identifier]));
    return known;
  };
  return { lines: text.split(/\r\n|[\n\r\u2028\u2029]/), identifiers };
}

function readAs(text) {
  try {
    return identifiersOf(text).found;
  } catch {
    return identifiersOf(`${text}`.replace(/^#!.*/, '')).found;
  }
}

// The rows of throws.txt: a name, and files each.
function rowsOf(file) {
  return fs.readFileSync(path.join(here, file), 'utf8').split(/^## /m).slice(1).map((text) => {
    const [head, ...parts] = text.split(/^=== /m);
    const files = parts.map((part) => [part.slice(0, part.indexOf('\n')), part.slice(part.indexOf('\n') + 1)]);
    return { name: head.trim(), files: files.map(([file, text]) => [file, text.replace(/<CR>/g, '\r')]) };
  });
}

// Where a row throws: the file, the line and the column of the text `new Error('here`.
function thrownAt(files) {
  for (const [file, text] of files) {
    const at = text.indexOf("new Error('here");
    if (at < 0) continue;
    const lines = text.slice(0, at).split(/\r\n|[\n\r\u2028\u2029]/);
    return { file, line: lines.length, column: lines.at(-1).length + 1 };
  }
  return null;
}

// What Node tells of a throw in a bundle.
function checkThrow({ name, files }, [form, ...words]) {
  inFolder(files, (folder) => {
    const output = form === 'esm' ? 'out/bundle.mjs' : 'out/bundle.cjs';
    const made = run(program, [files[0][0], '-o', output, `--format=${form}`, ...words], folder);
    if (made.status !== 0) return tell(`${name}, ${form}`, `status ${made.status}: ${made.stderr}`);
    const ran = run('node', ['--enable-source-maps', output], folder);
    const { file, line, column } = thrownAt(files);
    const where = `${path.join(folder, file)}:${line}:${column}`;
    const frame = ran.stderr.split('\n').find((text) => /^ +at /.test(text)) ?? '';
    const isThere = frame.endsWith(`${where})`) || frame.endsWith(`at ${where}`) || frame.endsWith(`file://${where})`) || frame.endsWith(`at file://${where}`);
    tell(`${name}, ${form}`, isThere ? null : `not ${where}: ${ran.stderr}${fs.readFileSync(path.join(folder, output), 'utf8').slice(0, 1500)}`);
  });
}

// The ways in which a map is written.
function checkWays() {
  const text = "export const answer = 42;\nconsole.log(answer);\n";
  inFolder([['main.mjs', text]], (folder) => {
    const made = (...words) => {
      const it = run(program, ['main.mjs', ...words], folder);
      return it.status === 0 ? it.stdout : `status ${it.status}: ${it.stderr}`;
    };
    const read = (file) => fs.readFileSync(path.join(folder, file), 'utf8');
    made('-o', 'a/b.mjs', '--sourcemap');
    made('-o', 'c/b.mjs', '--sourcemap=external');
    made('-o', 'd/b.mjs', '--sourcemap=inline');
    made('-o', 'e/b.mjs', '--sourcemap', '--sources-content=false');
    made('-o', 'f/b.mjs');
    made('--outdir=g', '--sourcemap=linked');
    const map = JSON.parse(read('a/b.mjs.map'));
    const plain = read('f/b.mjs');
    tell('linked', read('a/b.mjs') === `${plain}//# sourceMappingURL=b.mjs.map\n` ? null : read('a/b.mjs'));
    tell('sources', JSON.stringify([map.sources, map.sourcesContent]) === JSON.stringify([['../main.mjs'], [text]]) ? null : JSON.stringify(map));
    tell('external', read('c/b.mjs') === plain && read('c/b.mjs.map') === read('a/b.mjs.map') ? null : read('c/b.mjs'));
    const [before, url] = read('d/b.mjs').split('//# sourceMappingURL=data:application/json;base64,');
    tell('inline', before === plain && Buffer.from(url ?? '', 'base64').toString() === read('a/b.mjs.map') ? null : read('d/b.mjs'));
    const { sourcesContent, ...others } = JSON.parse(read('a/b.mjs.map'));
    tell('no contents', JSON.stringify(JSON.parse(read('e/b.mjs.map'))) === JSON.stringify(others) ? null : read('e/b.mjs.map'));
    tell('none', fs.existsSync(path.join(folder, 'f/b.mjs.map')) ? 'there is one' : null);
    tell('a folder', fs.existsSync(path.join(folder, 'g/main.mjs.map')) ? null : 'there is none');
    tell('standard output', made('--sourcemap').startsWith('status 2: ') ? null : 'not refused');
    const [printed, last] = made('--sourcemap=inline').split('//# sourceMappingURL=data:application/json;base64,');
    const own = JSON.parse(Buffer.from(last ?? '', 'base64').toString() || 'null');
    tell('standard output, inline', printed === plain && JSON.stringify(own?.sources) === '["main.mjs"]' ? null : printed);
  });
}

checkPackage('lodash-es', "import _, { chunk, debounce } from 'lodash-es';\nconsole.log(_.VERSION, chunk([1, 2, 3], 2), typeof debounce);\n", []);
checkPackage('d3', "import * as d3 from 'd3';\nconsole.log(Object.keys(d3).length, d3.max([1, 4, 2]));\n", ['--main-fields=module,main']);
checkPackage('three', "import * as three from 'three';\nconsole.log(new three.Vector3(1, 2, 3).length());\n", ['--main-fields=module,main']);
checkPackage('react', "import React from 'react';\nimport { renderToString } from 'react-dom/server';\nconsole.log(renderToString(React.createElement('b')));\n", []);
checkCost('lodash-es', "export * from 'lodash-es';\n");
checkWays();
for (const row of rowsOf('throws.txt')) {
  checkThrow(row, ['esm', '--sourcemap']);
  checkThrow(row, ['iife', '--sourcemap=inline']);
}
if (passed + failed !== wanted) {
  console.log(`maps: ${passed + failed} checks are here, and tests/counts has ${wanted}`);
  failed += 1;
}
console.log(`maps: ${passed} passed, ${failed} failed`);
process.exit(failed === 0 ? 0 : 1);
