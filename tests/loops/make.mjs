// node make.mjs > stdin   writes the rows of rows.mjs as lines for the program of the loops: trees in the JSON form, by ../../bridge.
import { moduleOf } from '../../bridge/read.mjs';
import { rows } from './rows.mjs';

const HELPER = 'function __swcpack_require__(fn) { var module; return function () { if (!module) { module = { exports: {} }; fn.call(module.exports, module, module.exports); } return module.exports; }; }';
// In a bundle a text in double quotes is one that the linker has written, so that no source text of it is known.
const bare = (node) => {
  if (Array.isArray(node)) return node.map(bare);
  if (!node || typeof node !== 'object') return node;
  const own = Object.fromEntries(Object.entries(node).map(([key, value]) => [key, bare(value)]));
  if (own.type === 'Str' && own.raw?.startsWith('"')) delete own.raw;
  return own;
};
const tree = (source) => bare(moduleOf(source.replace('HELPER', HELPER).replaceAll('(M)', '(module, exports)')));
const file = (name) => `${name}.js`;
const entries = (pairs) => pairs.map(([name, of]) => [name, file(of)]);
const map = (object, key, value) => Object.fromEntries(Object.entries(object).map(([k, v]) => [key(k), value(v)]));
const bundles = (given) => (typeof given === 'string' ? [['m', 0, given]] : given).map(([name, id, source]) => ({ name, id, module: tree(source) }));
// A refusal begins with its number.
const answer = (given) => (typeof given === 'string' && /^\d/.test(given) ? given : bundles(given));
const properties = (source) => tree(`({${source}});`).body[0].expr.expr.props;
const given = (call) => (typeof call === 'string' ? call : { owners: call.owners, module: tree(call.module) });

for (const { kind, files, config, meta, entries: of, bundle, bundles: several, refusal, calls, answers, later, first, second, alias, third, scopes, modules, gives, numbered, ...row } of rows) {
  if (files) row.document = { config: config ?? {}, files: map(files, file, tree), entries: entries(of ?? [['m', 'main']]), meta: map(meta ?? {}, file, properties) };
  if (refusal ?? bundle ?? several) row.bundles = refusal ?? bundles(bundle ?? several);
  if (calls) row.calls = calls.map(entries);
  if (answers) row.answers = answers.map(answer);
  if (later) row.later = map(later, file, tree);
  if (first) Object.assign(row, { first: tree(first), second: tree(second), alias: tree(alias), third: tree(third), scopes: tree(scopes) });
  if (gives) row.gives = given(gives);
  if (modules) row.modules = modules.map((one) => ({ ...one, module: tree(one.module) }));
  if (numbered) row.files = numbered;
  console.log(kind, JSON.stringify(row));
}
