// Who says what a text of JavaScript is: Babel by its tree, Node by its parser. Needs --experimental-vm-modules, and for the
// places of Node's errors --expose-internals.
import { createRequire } from 'node:module';
import vm from 'node:vm';
import { moduleOf } from '../../bridge/read.mjs';
import { differences } from './differences.mjs';

const require = createRequire(import.meta.url);

export const goals = ['module', 'commonjs'];

// What Node refuses and the linker judges: reading takes it.
const judgedByLinker = [
  /^Identifier '.*' has already been declared$/s,
  /^Duplicate export of '.*'$/s,
  /^Export '.*' is not defined in module$/s,
  /^Strict mode code may not include a with statement$/,
];

const sorted = (value) => {
  if (value === null || typeof value !== 'object') return value;
  if (Array.isArray(value)) return value.map(sorted);
  return Object.fromEntries(Object.keys(value).sort().map((key) => [key, sorted(value[key])]));
};

/** The text of a form, as the programs write it: keys in ascending order. */
export const written = (form) => JSON.stringify(sorted(form));

/** What Babel makes of a text: `form`, or `refusal` with its message and its place (line and column from 1). */
export function babelOf(text, goal) {
  try {
    return { form: written(moduleOf(text, 'text', goal)) };
  } catch (error) {
    const [, line, column, message] = /^text:(\d+):(\d+): (.*)$/s.exec(error.message) ?? [];
    return { refusal: message ? { message, line: Number(line), column: Number(column) } : { message: `${error}` } };
  }
}

const strict = '"use strict";\n';
const compiled = {
  module: (text) => new vm.SourceTextModule(text, { identifier: 'text' }),
  // The body of a function. What comes first in a text is so still first in a line.
  commonjs: (text) => vm.compileFunction(strict + text.replace(/^#!/, '//'), [], { filename: 'text' }),
};

/** What Node says to a text: {}, or `refusal` with its message and, with `places`, where (line, column, length). */
export function nodeOf(text, goal, places = false) {
  try {
    compiled[goal](text);
    return {};
  } catch (error) {
    return { refusal: { message: error.message, ...(places ? placeOf(error, goal) : {}) } };
  }
}

// Node shows the line of an error, with marks below what it means.
function placeOf(error, goal) {
  require('internal/util').decorateErrorStack(error);
  const [, line, marks] = /^text:(\d+)\n.*\n(\s*\^+)/.exec(error.stack) ?? [];
  if (!line) return {};
  return {
    line: Number(line) - (goal === 'commonjs' ? 1 : 0),
    column: marks.indexOf('^') + 1,
    length: marks.length - marks.indexOf('^'),
  };
}

/**
 * What both say: `babel`, `node`, whether the text is one (`taken`, where that is decided), and where they differ the name
 * of that difference (`difference`, null where it has none).
 */
export function verdict(text, goal, places = false) {
  const babel = babelOf(text, goal);
  const node = nodeOf(text, goal, places);
  const isLinkers = node.refusal && judgedByLinker.some((message) => message.test(node.refusal.message));
  if (isLinkers || !babel.refusal === !node.refusal) return { babel, node, taken: !babel.refusal };
  const found = differences.find((row) => isOf(row, text, babel, node));
  const takes = { babel: !babel.refusal, node: !node.refusal };
  return { babel, node, taken: takes[found?.decides], difference: found?.name ?? null };
}

const isOf = (row, text, babel, node) => (!row.text || row.text.test(text))
  && (babel.refusal ? row.babel?.test(babel.refusal.message) : row.node?.test(node.refusal.message));
