// The sections of the library that the page's caller does not use, by a program that stands on `swc_bundler` alone
// (`sections`). What it writes of trees is compared as JavaScript.
import { moduleOf } from '../../bridge/read.mjs';
import { textOf } from '../../bridge/write.mjs';
import { check, equal, run } from './check.mjs';

const form = (source) => JSON.stringify(moduleOf(source, 'source.js'));
const files = (sources) => Object.entries(sources).map(([name, source]) => `${name}=${form(source)}`).join('\t');
const code = (tree) => textOf(JSON.parse(tree));
const asPrinted = (source) => textOf(moduleOf(source, 'wanted.js'));

const helper = `function helper(fn) { var module; return function () { if (!module) { module = { exports: {} };
  fn.call(module.exports, module, module.exports); } return module.exports; }; }`;
const stars = {
  'main.js': 'export * from "./a"; export * from "./b";',
  'a.js': 'export * from "./c";',
  'b.js': 'export * from "./c";',
  'c.js': 'export const x = 1;',
};
const cycle = {
  'main.js': 'import { f } from "./a"; f(); export const k = 1;',
  'a.js': 'import { k } from "./main"; export function f() { () => k; }',
};

// What is asked; and what is to be written: a text, or a tree with what stands before and behind it.
const rows = [
  ['ids a.js b.js a.js', '0 2 3;1 4 5;0 2 3;'],
  [`marks ${form('f(g(x), x);')}`, ['2\t', 'f_(g_(x_), x_);', '']],
  [`scope ${form('function f(a = () => x) { var x; return x; }')}`, 'f0 a1 x2 x3 x3 '],
  [`rename ${form('use(x, { x });')}`, ['true true\t', 'use(y, { x: y });', '']],
  [`rename ${form('use(z);')}`, ['false true\t', 'use(z);', '']],
  [
    `tables ${form(`import d, { a as b } from './a'; import * as n from './b'; export { b as c };
      export { d as e } from './c'; export * from './d'; export const own = 1; export { n };`)}`,
    './a ./b ./c ./d; d=default@./a b=a@./a n=*@./b ; c=a@./a e=d@./c own=own n=n *@./d ',
  ],
  ['graph 0-1 1-2 1-3 2-4 3-4 4-0', '0 1 2 3 4 ; 4 2 3 1 0 ; 4 2 3 1 0 ; '],
  ['paths 2-3 0-1 1-2 ? 0-3 3-0 0-0', 'true false false '],
  [
    `sort ${form('function f1() {} f2();')}\t${form('function f2() {} f1();')}`,
    ['', 'function f1() {} function f2() {} f2(); f1();', '\t1-2 Some(Always); 3-0 Some(Always); '],
  ],
  [`link x ${files(stars)}`, 'x of 3 false false; '.repeat(4)],
  [
    `link x ${files({ 'main.js': 'import * as ns from "./a"; use(ns);', 'a.js': 'export const x = 1;' })}`,
    'none false false; x of 1 false true; ',
  ],
  [
    `link x ${files({ 'main.js': 'export { x } from "./c";', 'c.js': 'exports.x = 1;' })}`,
    'of CommonJS 1 false false; none true false; ',
  ],
  [`merge ${files(stars)}`, ['', 'const x = 1; export { x as x };', '']],
  [
    `merge ${files({
      'main.js': 'import { x as y } from "./a"; function f(x) { return x + y; } f(1);',
      'a.js': 'export const x = 1;',
    })}`,
    ['', 'const x = 1; function f(x1) { return x1 + x; } f(1);', ''],
  ],
  [
    `bundle needs ${files({
      'main.js': 'import { u } from "./a"; use(u, import.meta.url);',
      'a.js': 'export const u = import.meta.url;',
    })}`,
    [
      'out 0\t',
      `const importMeta = { url: "a.js", entry: false }; const u = importMeta.url;
       const importMeta1 = { url: "main.js", entry: true }; use(u, importMeta1.url);`,
      '',
    ],
  ],
  [`bundle iife ${files({ 'main.js': 'f();' })}`, ['out 0\t', '(function () { f(); return {}; })();', '']],
  [
    `bundle needs ${files(cycle)}`,
    ['out 0\t', 'const k = 1; function f() { () => k; } f(); export { k as k };', ''],
  ],
  [
    `bundle standard ${files(cycle)}`,
    ['out 0\t', 'function f() { () => k; } f(); const k = 1; export { k as k };', ''],
  ],
  [`inline ${form('use(b, { b });')}`, ['', 'use(a, { b: a });', '']],
  [
    `cjs ${form('exports.x = 1;')}`,
    ['', `${helper} var load = helper(function (module, exports) { exports.x = 1; });`, ''],
  ],
  ['namespace', ['', 'const mod = function () { return { ["__proto__"]: p, x: p }; }();', '']],
  [
    `iife ${form('const p = 1; export { p as __proto__ };')}`,
    ['', '(function () { const p = 1; return { ["__proto__"]: p }; })();', ''],
  ],
];

/** Looks at what the program writes for each row. */
export function checkSections(program) {
  const { status, stdout, stderr } = run(program, [], { input: rows.map(([asked]) => `${asked}\n`).join('') });
  const lines = stdout.split('\n');
  check('the program of the sections ends with status 0', () => equal(status, 0, stderr));
  for (const [at, [asked, wanted]] of rows.entries()) {
    check(`section ${asked.slice(0, 60)}`, () => {
      const line = lines[at] ?? '';
      if (typeof wanted === 'string') return equal(line, wanted);
      const [before, source, behind] = wanted;
      equal(line.slice(0, before.length), before);
      equal(line.slice(line.length - behind.length), behind);
      return equal(code(line.slice(before.length, line.length - behind.length)), asPrinted(source));
    });
  }
}
