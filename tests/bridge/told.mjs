// What is told in place of a bundle: each refusal of the linker with its file and the name in it, and what the bridge sees
// itself, with the place.
import fs from 'node:fs';
import path from 'node:path';
import { bundled, check, equal, match, scratch } from './check.mjs';

// A folder with these files, by their names.
function folderOf(files) {
  const folder = fs.mkdtempSync(path.join(scratch, 'told-'));
  for (const [name, text] of Object.entries(files)) {
    fs.mkdirSync(path.dirname(path.join(folder, name)), { recursive: true });
    fs.writeFileSync(path.join(folder, name), text);
  }
  return folder;
}

// What the bridge says of these files, asked for the words.
function said(files, words = ['main.js'], how = {}) {
  const { status, stdout, stderr } = bundled(words, { cwd: folderOf(files), ...how });
  equal(stdout, '');
  return { status, text: stderr };
}

const star = "export * from 'outside';";
const refusals = [
  { name: 'DoubledDeclaration', number: 7, file: 'main.js', word: 'x', files: { 'main.js': 'let x; let x;' } },
  { name: 'DoubledExport', number: 8, file: 'main.js', word: 'x', files: { 'main.js': 'let x; export { x }; export { x };' } },
  { name: 'UndeclaredExport', number: 9, file: 'main.js', word: 'x', files: { 'main.js': 'export { x };' } },
  {
    name: 'MissingExport', number: 10, file: 'lib/inner.js', word: 'lost', files: {
      'main.js': "import './lib/inner.js';",
      'lib/inner.js': "import { lost } from '../other.js';\nlost();",
      'other.js': 'export const found = 1;',
    },
  },
  {
    name: 'AmbiguousExport', number: 11, file: 'main.js', word: 'x', files: {
      'main.js': "import { x } from './both.js';",
      'both.js': "export * from './a.js';\nexport * from './b.js';",
      'a.js': 'export const x = 1;',
      'b.js': 'export const x = 2;',
    },
  },
  {
    name: 'ExternalStarOnly', number: 12, file: 'main.js', word: 'x', files: {
      'main.js': "import { x } from './star.js';", 'star.js': star,
    },
  },
  {
    name: 'StarOfCommonJs', number: 13, file: 'main.js', word: './c.js', options: ['--require'], files: {
      'main.js': "export * from './c.js';", 'c.js': 'exports.x = 1;',
    },
  },
  {
    name: 'NamespaceOverExternalStar', number: 14, file: 'star.js', files: {
      'main.js': "import * as all from './star.js';\nuse(all);", 'star.js': star,
    },
  },
  { name: 'With', number: 15, file: 'main.js', files: { 'main.js': 'with ({}) {}' } },
  {
    name: 'RequiredEsModule', number: 16, file: 'main.js', word: './a.js', options: ['--require'], files: {
      'main.js': "require('./a.js');", 'a.js': 'export const x = 1;',
    },
  },
  {
    name: 'AwaitInCommonJs', number: 18, file: 'c.js', options: ['--require'], files: {
      'main.js': "require('./c.js');", 'c.js': 'exports.x = await 1;',
    },
  },
  { name: 'DoubledEntry', number: 19, file: 'main.js', words: ['main.js', 'main.js', '-o', 'out'], files: { 'main.js': '' } },
  {
    name: 'ExternalUnderIife', number: 20, file: 'main.js', word: 'outside', options: ['--iife'], files: {
      'main.js': "import 'outside';",
    },
  },
  {
    name: 'ArgumentsUnderIife', number: 21, file: 'main.js', options: ['--iife'], files: { 'main.js': 'use(arguments);' },
  },
];
const escaped = (text) => text.replace(/[.*+?^${}()|[\]\\/]/g, '\\$&');

for (const { name, number, file, word, files, options = [], words = ['main.js'] } of refusals) {
  check(`${name} is told with its file and name`, () => {
    const { status, text } = said(files, [...words, ...options]);
    equal(status, 1);
    const what = word ? ` '${escaped(word)}'` : '.*';
    match(text, new RegExp(`^bundle: ${escaped(file)}: error ${number}: ${name}${what}: .+\n$`));
  });
}

check('without the second program a refusal is told by its number and name', () => {
  const { status, text } = said({ 'main.js': 'with ({}) {}' }, ['main.js'], {
    env: { ...process.env, BUNDLE_JSON_TOLD: path.join(scratch, 'none') },
  });
  equal(status, 1);
  match(text, /^bundle: error 15: With: a `with` statement\n$/);
});

const seen = [
  ['a file that is not there', { 'main.js': "let x;\n  import './lost';" }, /^bundle: main\.js:2:10: there is no file '\.\/lost'/],
  ['text that does not parse', { 'main.js': "import './a.js';", 'a.js': 'let x;\n+;' }, /^bundle: a\.js:2:2: Unexpected token\n$/],
  ['what is not of ECMAScript 2022', { 'main.js': '\n<div/>' }, /^bundle: main\.js:2:1: .+\n$/],
  ['what only sloppy code may do', { 'main.js': 'var a = 010;' }, /^bundle: main\.js:1:9: Legacy octal literals/],
  ['half of a surrogate pair', { 'main.js': "x = 'a\\ud800';" }, /^bundle: main\.js:1:5: a text with half of a surrogate pair/],
  ['half of one in a directive', { 'main.js': "'\\ud800';" }, /^bundle: main\.js:1:1: a text with half of a surrogate pair/],
  ['a tree that is too deep', { 'main.js': `x = ${'['.repeat(80)}${']'.repeat(80)};` }, /^bundle: main\.js: its tree is deeper than the program reads/],
];
for (const [name, files, wanted] of seen) {
  check(`${name} is told with its place`, () => {
    const { status, text } = said(files);
    equal(status, 1);
    match(text, wanted);
  });
}

const misused = [
  ['no entry', [], 2, /^bundle: there is no entry\n\nbridge\/bundle /],
  ['an unknown option', ['--unknown'], 2, /--unknown/],
  ['several entries without a folder', ['main.js', 'a.js'], 2, /-o FOLDER/],
  ['an entry that is not there', ['lost.js'], 1, /^bundle: lost\.js: there is no such file\n$/],
  ['a program that is not there', ['main.js', '--program', '/none'], 1, /no program to run at \/none.*bridge\/build/s],
  ['a program that answers otherwise', ['main.js', '--program', '/bin/false'], 1, /^bundle: \/bin\/false ended with status 1: \n$/],
];
for (const [name, words, status, wanted] of misused) {
  check(`${name} is told`, () => {
    const answer = said({ 'main.js': '', 'a.js': '' }, words);
    equal(answer.status, status);
    match(answer.text, wanted);
  });
}

check('--help says what there is', () => {
  const { status, stdout } = bundled(['--help']);
  equal(status, 0);
  for (const word of ['--output', '--iife', '--require', '--external', '--document']) match(stdout, new RegExp(word));
});
