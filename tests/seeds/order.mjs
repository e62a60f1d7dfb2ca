// The statements of a bundle in the order of ECMA-262: which module runs when, and its statements in turn.
import { marked } from './graphs.mjs';

const parts = (node) => (node && typeof node === 'object' ? Object.values(node) : []);
const found = (node, test) => (test(node) ? [node] : parts(node).flatMap((part) => found(part, test)));
const symbols = (node) => found(node, (it) => it?.type === 'Ident').map((it) => it.sym);
const isMark = (node) => node?.type === 'Number' && /^0x/.test(node.raw ?? '');
const isHoisted = (item) => item.type === 'FnDecl';
const declared = (item) => (item.type === 'VarDecl' ? symbols(item.decls.map((it) => it.name)) : item.ident ? [item.ident.sym] : []);
// What the linker adds is an object of a namespace, as a function's call; else it stands in front, or ends the bundle.
const isObject = (item) => item.type === 'VarDecl' && item.decls[0].init?.callee?.type === 'FnExpr';
const isEnd = (item) => ['NamedExport', 'ExportAll', 'ReturnStmt'].includes(item.type);

// The items in order, where `modules` are the numbers of the modules in the order in which they run. An object of a
// namespace stands behind all that it reads.
function ordered(items, modules) {
  const keys = new Map(), declaring = new Map(items.flatMap((item) => declared(item).map((name) => [name, item])));
  const keyOf = (item) => {
    if (!keys.has(item)) keys.set(item, madeKey(item));
    return keys.get(item);
  };
  const madeKey = (item) => {
    const [mark] = found(item, isMark);
    if (mark) return place(marked(Number(mark.raw)));
    if (isEnd(item)) return Infinity;
    if (!isObject(item)) return -1;
    keys.set(item, -1);
    const read = symbols(item.decls[0].init).map((name) => declaring.get(name)).filter((it) => it && !isHoisted(it));
    return Math.max(-1, ...read.map(keyOf)) + 1e-3;
  };
  const place = ({ module, place: within }) => modules.indexOf(module) * 1e6 + within;
  return items.map((item) => [keyOf(item), item]).sort(([a], [b]) => a - b).map(([, item]) => item);
}

/** The tree of a bundle with its statements in that order; what is one function's call has them inside. */
export function inOrder(tree, modules, isCall) {
  if (!isCall) return { ...tree, body: ordered(tree.body, modules) };
  const whole = structuredClone(tree);
  const [block] = found(whole, (node) => node?.type === 'BlockStmt');
  block.stmts = ordered(block.stmts, modules);
  return whole;
}
