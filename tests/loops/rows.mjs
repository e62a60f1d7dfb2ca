// The rows of the loops, in JavaScript; make.mjs writes them as the file stdin. What has to come out was made by hand, from the rules of
// docs/DEFINITIONS.md and from ECMA-262, and not by the program. HELPER and M stand for the helper of CommonJS modules and its parameters.
// Files are named without `.js`; a row has one entry, `m` of main.js, unless it says otherwise.

const stars = { name: 'two stars lead to one name', files: { main: `export * from './a'; export * from './b';`, a: `export * from './c';`, b: `export * from './c';`, c: `export const x = 1;` },
  bundle: `const x = 1; export { x as x };`,
  asked: ['load main.js', 'resolve main.js ./a', 'resolve main.js ./b', 'load a.js', 'resolve a.js ./c', 'load b.js', 'resolve b.js ./c', 'load c.js'] };
const commonjs = { name: 'CommonJS modules that require one', config: { require: true }, files: { main: `require('./a'); require('./b');`, a: `require('./common')`, b: `require('./common')`, common: `console.log('foo');` },
  bundle: `HELPER var load = __swcpack_require__(function (M) { console.log('foo'); }); var load1 = __swcpack_require__(function (M) { load(); }); var load2 = __swcpack_require__(function (M) { load(); }); load1(); load2();`,
  asked: ['load main.js', 'resolve main.js ./a', 'resolve main.js ./b', 'load a.js', 'resolve a.js ./common', 'load b.js', 'resolve b.js ./common', 'load common.js'] };
const hook = { name: 'import.meta of an entry', meta: { main: `url: 'u', base: base` }, files: { main: `const base = 2; console.log(import.meta.url, base);` },
  bundle: `const importMeta = { url: 'u', base: base }; const base1 = 2; console.log(importMeta.url, base1);`,
  asked: ['load main.js', 'meta main.js true'] };
const inOrder = { name: 'requests in their order', files: { main: `export { b } from './b'; import './a';`, a: `console.log('a');`, b: `export const b = 1;` },
  bundle: `const b = 1; console.log('a'); export { b as b };`,
  asked: ['load main.js', 'resolve main.js ./b', 'resolve main.js ./a', 'load b.js', 'load a.js'] };
const twoHooks = { name: 'import.meta of two modules', meta: { a: `url: 'a.js'`, main: `url: 'main.js'` }, files: { a: `export const u = import.meta.url;`, main: `import { u } from './a'; use(u, import.meta.url);` },
  bundle: `const importMeta = { url: 'a.js' }; const u = importMeta.url; const importMeta1 = { url: 'main.js' }; use(u, importMeta1.url);`,
  asked: ['load main.js', 'resolve main.js ./a', 'load a.js', 'meta a.js false', 'meta main.js true'] };
const clash = { name: 'a name inside a function clashes', files: { a: `export const x = 1;`, main: `import { x as y } from './a'; function f(x) { return x + y; } f(1);` },
  bundle: `const x = 1; function f(x1) { return x1 + x; } f(1);`, asked: ['load main.js', 'resolve main.js ./a', 'load a.js'] };
const iife = { name: 'one function\'s call', config: { module: 'Iife' }, files: { main: `export { p as __proto__ }; const p = 1;` },
  bundle: `(function () { const p = 1; return { ["__proto__"]: p }; })();`, asked: ['load main.js'] };
const cycle = { name: 'a cycle', files: { b: `import { a } from './main'; export const b = 2; export function f() { return a; }`, main: `import { b } from './b'; export const a = 1; console.log(b);` },
  bundle: `const b = 2; const a = 1; function f() { return a; } console.log(b); export { a as a };`,
  asked: ['load main.js', 'resolve main.js ./b', 'load b.js', 'resolve b.js ./main'] };
const whole = { name: 'the whole of a CommonJS module, and a name of it', config: { require: true }, files: { c: `exports.x = 1;`, main: `import * as w from './c'; import { x } from './c'; use(w, x);` },
  bundle: `HELPER var load = __swcpack_require__(function (M) { exports.x = 1; }); var w = load(), { x: x } = w; use(w, x);`,
  asked: ['load main.js', 'resolve main.js ./c', 'load c.js'] };
const twoEntries = { name: 'two entries that share a module', entries: [['p', 'a'], ['q', 'b']], files: { a: `import { x } from './c'; export const y = x;`, b: `import { x } from './c'; use(x);`, c: `export const x = 1;` },
  bundles: [['p', 0, `const x = 1; const y = x; export { y as y };`], ['q', 1, `const x = 1; use(x);`]],
  asked: ['load a.js', 'resolve a.js ./c', 'load b.js', 'resolve b.js ./c', 'load c.js'] };
const namespaces = { name: 'namespaces, one of them inside another', files: { main: `import * as ns from './a'; use(ns.n.x, ns.n);`, a: `export * as n from './b';`, b: `export const x = 1;` },
  bundle: `const x = 1; const mod = function () { return { x: x }; }(); use(x, mod);`,
  asked: ['load main.js', 'resolve main.js ./a', 'load a.js', 'resolve a.js ./b', 'load b.js'] };
const externals = { name: 'externals', config: { external_modules: ['ext', 'side', 'star'] }, files: { main: `import { a as b } from 'ext'; import 'side'; export * from 'star'; import * as n from 'ext'; use(b, n);` },
  bundle: `import { a as b } from "ext"; import * as n from "ext"; import "side"; import "star"; use(b, n); export * from "star";`, asked: ['load main.js'] };
const names = { name: 'names beside bindings, and declarations inside', files: { a: `export default function () { var v = 1; { let w = v; return w; } } export { q as r }; const q = 2;`, main: `import d, { r as s } from './a'; for (let q of [s]) { const w = q; use(d, w); } export { s as t };` },
  bundle: `function __default() { var v = 1; { let w = v; return w; } } const q = 2; for (let q1 of [q]) { const w = q1; use(__default, w); } export { q as t };`,
  asked: ['load main.js', 'resolve main.js ./a', 'load a.js'] };

const calls = [
  { name: 'no entry', files: { main: `f();` }, calls: [[]], answers: [[]], asked: [[]] },
  { name: 'two entries of one file', files: { main: `f();` }, calls: [[['a', 'main'], ['b', 'main']]], answers: ['19 DoubledEntry main.js b'], asked: [[]] },
  { name: 'two entries of one name', files: { main: `f();` }, calls: [[['a', 'main'], ['a', 'other']]], answers: ['19 DoubledEntry other.js a'], asked: [[]] },
  { name: 'one module may be kept', config: { max_modules: 1 }, files: { main: `import './a';`, a: `` }, answers: ['4 TooManyModules a.js', '4 TooManyModules a.js'],
    asked: [['load main.js', 'resolve main.js ./a'], []] },
  { name: 'no module may be kept', config: { max_modules: 0 }, files: { main: `` }, answers: ['4 TooManyModules main.js'], asked: [[]] },
  { name: 'two modules may be kept', config: { max_modules: 2 }, files: { main: `import './a';`, a: `import './b';`, b: `` }, answers: ['4 TooManyModules b.js', '4 TooManyModules b.js'],
    asked: [['load main.js', 'resolve main.js ./a', 'load a.js', 'resolve a.js ./b'], []] },
  { name: 'a file is not there at first', fails_at: 3, files: { main: `import './a';`, a: `f();` }, answers: ['1 Load a.js', `f();`],
    asked: [['load main.js', 'resolve main.js ./a', 'load a.js!'], ['load a.js']] },
  { name: 'the hook fails at first', fails_at: 4, ...pick(twoHooks), answers: ['3 Hook a.js', twoHooks.bundle],
    asked: [['load main.js', 'resolve main.js ./a', 'load a.js', 'meta a.js false!'], ['meta a.js false', 'meta main.js true']] },
  { name: 'the hook fails for a file that the loader names otherwise', fails_at: 4, named: { 'a.js': 'z.js' }, meta: { z: `url: 'z'` }, files: { main: `import './a';`, a: `import.meta;` },
    answers: ['3 Hook a.js', `const importMeta = { url: 'z' }; importMeta;`], asked: [['load main.js', 'resolve main.js ./a', 'load a.js', 'meta z.js false!'], ['meta z.js false']] },
  { name: 'the loader runs out of memory', fails_at: 1, is_memory: true, files: { main: `f();` }, answers: ['22 OutOfMemory', `f();`], asked: [['load main.js!'], ['load main.js']] },
  { ...pick(twoEntries), name: 'a shared module is loaded once', answers: [twoEntries.bundles, twoEntries.bundles], asked: [twoEntries.asked, []] },
  { name: 'which is the entry', entries: [['m', 'main'], ['a', 'a']], files: { main: `import './a'; import.meta;`, a: `import.meta;` },
    answers: [[['m', 0, `const importMeta = {}; importMeta; const importMeta1 = {}; importMeta1;`], ['a', 1, `const importMeta = {}; importMeta;`]]],
    asked: [['load main.js', 'resolve main.js ./a', 'load a.js', 'meta a.js false', 'meta main.js true', 'meta a.js true']] },
  { name: 'another entry after a refusal', files: { main: `import { x } from './a';`, a: `export const y = 1;`, other: `import { y } from './a'; use(y);` },
    calls: [[['m', 'main']], [['o', 'other']]], answers: ['10 MissingExport main.js x', [['o', 2, `const y = 1; use(y);`]]],
    asked: [['load main.js', 'resolve main.js ./a', 'load a.js'], ['load other.js', 'resolve other.js ./a']] },
  { name: 'the same entry of a fresh bundler', files: { main: `import { x } from './a';`, a: `export const y = 1;`, other: `import { y } from './a'; use(y);` },
    calls: [[['o', 'other']]], answers: [[['o', 0, `const y = 1; use(y);`]]], asked: [['load other.js', 'resolve other.js ./a', 'load a.js']] },
  { name: 'another tree and another file at each call', files: { main: `import './a'; f();`, a: `g();`, b: `h();` }, later: { main: `import './b'; h();`, a: `h();` }, leads: { './a': ['a.js', 'b.js'] },
    answers: [`g(); f();`, `g(); f();`], asked: [['load main.js', 'resolve main.js ./a', 'load a.js'], []] },
  { name: 'another tree and another file at each call, one of which fails', fails_at: 5, files: { main: `import './a'; import './b'; f();`, a: `g();`, b: `k();` },
    later: { main: `h();`, a: `h();` }, leads: { './a': ['a.js', 'b.js'] }, answers: ['1 Load b.js', `g(); k(); f();`, `g(); k(); f();`],
    asked: [['load main.js', 'resolve main.js ./a', 'resolve main.js ./b', 'load a.js', 'load b.js!'], ['load b.js'], []] },
  { name: 'the loader answers another file\'s name, and a fault', named: { 'a.js': 'z.js' }, files: { main: `import { x } from './a';`, a: `import.meta; export const x = 1; export { y } from './main';` },
    answers: ['10 MissingExport a.js y'], asked: [['load main.js', 'resolve main.js ./a', 'load a.js', 'resolve a.js ./main']] },
  { name: 'the loader answers another file\'s name, and the hook sees it', named: { 'a.js': 'z.js' }, meta: { z: `url: 'z'`, a: `url: 'a'` }, files: { main: `import './a';`, a: `import.meta;` },
    answers: [`const importMeta = { url: 'z' }; importMeta;`], asked: [['load main.js', 'resolve main.js ./a', 'load a.js', 'meta z.js false']] },
  { name: 'the resolver answers the file that asks', leads_back: true, files: { main: `import './q'; f();` }, answers: [`f();`, `f();`], asked: [['load main.js', 'resolve main.js ./q'], []] },
  { name: 'two specifiers of one file', files: { main: `import './a'; import './a.js'; f();`, a: `g();` }, answers: [`g(); f();`], asked: [['load main.js', 'resolve main.js ./a', 'resolve main.js ./a.js', 'load a.js']] },
  { name: 'a function named require', config: { require: true }, files: { main: `function require(p) { return p; } require('./zz');` }, answers: [`function require(p) { return p; } require('./zz');`], asked: [['load main.js']] },
];

const refusals = [
  { name: 'a name that nobody exports', files: { a: `export * from './b';`, b: `export * from './a';`, main: `import { x } from './a';` }, refusal: '10 MissingExport main.js x' },
  { name: 'a function declared twice', files: { main: `function f() {} function f() {}` }, refusal: '7 DoubledDeclaration main.js f' },
  { name: 'an external in one function\'s call', config: { module: 'Iife', external_modules: ['ext'] }, files: { main: `import 'ext';` }, refusal: '20 ExternalUnderIife main.js ext' },
  { name: 'a required ES module', config: { require: true }, files: { main: `require('./a');`, a: `export const x = 1;` }, refusal: '16 RequiredEsModule main.js ./a' },
  { name: 'a specifier that leads nowhere', files: { main: `import './a'; import 'a';`, a: `` }, refusal: '2 Resolve main.js a' },
];

function pick({ files, config, meta, entries }) { return { files, config, meta, entries }; }
const noted = [stars, commonjs, hook, clash, iife, cycle, whole, twoEntries, namespaces, externals, names].map((row) =>
  ({ ...pick(row), name: `contexts and notes everywhere: ${row.name}`, is_noted: true, answers: [row.bundles ?? row.bundle], asked: [row.asked] }));

const linked = [
  { file: 'main.js', id: 0, deps: [['./c', 1], ['./n', 2]], module: `import { p } from './c'; import * as ns from './n'; use(p, ns);` },
  { file: 'c.js', id: 1, deps: [], module: `exports.p = 1;` },
  { file: 'n.js', id: 2, deps: [], module: `export const v = 1;` },
];
// A chain of n nodes, each of which reaches all behind it.
const chain = (nodes, n, required) => [`${nodes} nodes`, ...Array.from({ length: n - 1 }, (_, i) => `${i}:${n - 1 - i}${i === required ? '!' : ''}`)].join(', ');
const unchanged = { first: `use(c); function f() {}`, second: `const b = 1;`, alias: `const c = b;`, third: `g(1); h(2);`,
  scopes: `function f(x) { let y = x; return (z) => { let x = y; return x + z; }; }`, modules: linked, items: 6,
  gives: {
    add_dep: { owners: '1 0 0 1 2 2', module: `const c = b; use(c); function f() {} const b = 1; g(1); h(2);` },
    push_all: { owners: '1 0 0 1 2 2', module: `const c = b; use(c); function f() {} const b = 1; g(1); h(2);` },
    append: { owners: '1 0 0 1 2', module: `const c = b; use(c); function f() {} const b = 1; h(2);` },
    append_all: { owners: '1 0 0 1 2 2', module: `const c = b; use(c); function f() {} const b = 1; g(1); h(2);` },
    prepend: { owners: '1 2 0 0 1', module: `const c = b; h(2); use(c); function f() {} const b = 1;` },
    map_any_items: { owners: '1 0 0 1', module: `const c = d; use(c); function f() {} const d = 1;` },
    map_items_mut: { owners: '1 0 0 1', module: `const c = d; use(c); function f() {} const d = 1;` },
    sort: { owners: '0 0 0 0', module: `const b = 1; const c = b; use(c); function f() {}` },
    inline: { owners: '0 0 1', module: `use(b); function f() {} const b = 1;` },
    'statement node': chain(66, 65), 'statement edge': chain(66, 66), 'required edge': chain(65, 65, 3),
    'module edge': '0: 1; 1:; 2: 3; 3:; ', generate: 'a.js 0; b.js 1; c.js 2; ', insert: 'a b#0; b none; c d#0; ', 'insert again': 'a d#0; b none; c none; ',
    resolve_scopes: null, merge_into_entry: null,
  } };

const numbered = { name: 'contexts of a graph', config: { disable_hygiene: true }, meta: { main: `url: 'u'` }, numbered: 2,
  files: { a: `export const x = 1; export function g(p) { let q = p; return q; }`,
    main: `import { x as y, g } from './a'; import * as ns from './a'; const f = (p) => { return p + y; }; use(g, f, ns, import.meta.url); export { f as h };` },
  // const x = 1; function g(p) { let q = p; return q; } const mod = function () { return { g: g, x: x }; }(); const importMeta = { url: 'u' };
  // const f = (p) => { return p + x; }; use(g, f, mod, importMeta.url); export { f as h };
  names: '+x#4 +g#4 +p.1 +q.1 p.1 q.1 +mod.1 g#4 x#4 +importMeta.1 +f#2 +p.2 p.2 x#4 use#1 g#4 f#2 mod.1 importMeta.1 f#2' };

// Each statement says of which file it is and which of its own; `of_f` is exported by f, `g_takes_f` taken by g of the CommonJS module f.
const ofA = `export const of_a = 'a 0';`, ofB = `export const of_b = 'b 0';`;
const scripts = { c: `exports.of_c = 'c 0';`, e: `require('./c'); exports.of_e = 'e 0';`, d: `import * as d_takes_c from './c'; import { of_e as d_takes_e } from './e'; use('d 0', d_takes_c, d_takes_e);` };
const ring = { main: `import { of_b } from './b'; export const of_main = 'main 0'; use('main 1', of_b);`, b: `import * as n from './main'; ${ofB} export function f() { return ['b 1', n]; }` };
const causes = [
  { name: 'a diamond with all kinds of declarations', files: { c: `'c 0'; export class of_c { m() { return 'c 1'; } }`, a: `import './c'; ${ofA} ; function f() { return 'a 1'; } export { f };`,
    b: `export * from './c'; export default 'b 0'; export let of_b = 'b 1'; if ('b 2') use('b 2');`,
    main: `import { of_a } from './a'; import d, { of_b, of_c } from './b'; use('main 0', of_a, of_b, d, of_c); export default function () { return 'main 1'; } export { of_a as x }; export var y = 'main 2';` } },
  { name: 'objects of namespaces', files: { main: `import * as n from './a'; import * as m from './b'; use('main 0', n, m);`, a: ofA, b: `${ofB} export * as n from './a';` } },
  { name: 'CommonJS modules, and who loads them', config: { require: true }, files: { ...scripts, main: `import { of_c as main_takes_c } from './c'; import './d'; use('main 0', main_takes_c);` } },
  { name: 'import.meta of two modules of three', meta: { a: `of: 'meta a'`, main: `of: 'meta main'` }, files: { a: `import './b'; use('a 0', import.meta.url); use('a 1');`, b: ofB, main: `import './a'; use('main 0', import.meta);` } },
  { name: 'externals in each form, and stars of them', config: { external_modules: ['ext', 'side', 'star', 'all'] }, files: { a: `import * as w from 'all'; export * from 'star'; use('a 0', w);`,
    main: `import { a as b } from 'ext'; import 'side'; export * from './a'; import * as n from 'ext'; export const of_main = 'main 0'; use('main 1', b, n);` } },
  { name: 'one function\'s call', config: { module: 'Iife' }, files: { a: ofA, main: `import { of_a } from './a'; export const of_main = 'main 0'; use('main 1', of_a);` } },
  { name: 'one function\'s call that exports nothing', config: { module: 'Iife' }, files: { main: `use('main 0');` } },
  { name: 'a cycle in the standard\'s order', config: { order: 'Standard' }, files: ring },
  { name: 'all at once in the standard\'s order, as one function\'s call', config: { order: 'Standard', module: 'Iife', require: true }, meta: { main: `of: 'meta main'` },
    files: { ...ring, ...scripts, main: `import './d'; ${ring.main} import { of_c as main_takes_c } from './c'; use('main 2', main_takes_c, import.meta);` } },
  { name: 'a cycle by needs', files: ring, none: true },
  { name: 'two entries that share a module, with contexts', config: { disable_hygiene: true }, entries: [['p', 'a'], ['q', 'b']], files: { a: `import { of_c } from './c'; ${ofA} use('a 1', of_c);`, b: `import * as n from './c'; ${ofB} use('b 1', n);`, c: `export const of_c = 'c 0';` } },
  { name: 'an entry with no statement', files: { main: `import './a'; export {};`, a: `` } },
];

// Words of the command, over files in memory. `ends` is what Node and a reader of the bundle expect, made by hand.
const at = (files) => Object.entries(files).map(([path, text]) => [`/work/${path}`, text]);
const command = ({ texts = {}, typed = '', status = 0, printed = '', stored = {}, told = '', ...row }) =>
  ({ ...row, texts: at(texts), typed, ends: { status, printed, stored: Object.entries(stored), told } });
const two = { 'main.mjs': `import { x } from './a.mjs';\nf(x);\n`, 'a.mjs': `export const x = 1;\n` };
const commands = [
  { name: 'a bundle to the standard output', words: ['main.mjs'], texts: two, printed: `const x = 1;\nf(x);\n` },
  { name: 'two bundles into a folder', words: ['main.mjs', 'a.mjs', '--outdir=d/'], texts: two,
    stored: { 'd/main.mjs': `const x = 1;\nf(x);\n`, 'd/a.mjs': `const x = 1;\nexport { x as x };\n` }, told: '2 modules, 2 files' },
  { name: 'the standard input as a script, over a package', words: ['-', '--outfile', 'b.js', '--format=iife'], typed: `import { p } from 'p';\nf(p);\n`,
    texts: { 'node_modules/p/package.json': `{"type": "module", "exports": "./p.js"}`, 'node_modules/p/p.js': `export const p = 2;\n` },
    stored: { 'b.js': `(function() {\n  "use strict";\n  const p = 2;\n  f(p);\n  return {};\n})();\n` } },
  { name: 'a name that nobody exports', words: ['main.mjs', '-o', 'b.mjs', '--color=always'], texts: { ...two, 'a.mjs': `export const y = 1;\n` }, status: 1, told: 'a.mjs has no export "x"' },
  { name: 'an input that would be written over', words: ['main.mjs', '-o', '/work/a.mjs'], texts: two, status: 1, told: '/work/a.mjs is an input' },
  { name: 'a file that is not there', words: ['none.mjs', '-o', 'b.mjs'], texts: two, status: 1, told: 'none.mjs' },
  { name: 'an option that there is not', words: ['main.mjs', '--formt=iife'], texts: two, status: 2, told: 'did you mean --format?' },
  { name: 'the version', words: ['--version'], printed: '0.1.0\n' },
].map(command);

const of = (kind) => (row) => ({ kind, ...row });
export const rows = [
  ...calls.map(of('calls')), ...noted.map(of('calls')),
  ...[stars, commonjs, hook, inOrder, twoHooks, whole].map(of('failing')),
  ...[clash, stars, commonjs, iife, hook, cycle, whole, twoEntries, ...refusals].map(of('growths')),
  ...Object.entries(unchanged.gives).map(([call, gives]) => of('unchanged')({ ...unchanged, name: call, call, gives })), of('quiet')({ name: 'calls that take no memory', modules: linked }), of('public')({ name: 'calls on names and kinds' }),
  of('numbered')(numbered), ...causes.map(of('causes')),
  of('streams')({ ...clash, name: 'streams that fail' }), of('program')({ ...twoHooks, name: 'memory for the program' }),
  ...commands.map(of('commands')),
];
