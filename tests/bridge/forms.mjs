// JavaScript to trees and back, over hand-made files that together have each kind of node. What is right is what Node does
// with the files as they are written.
import fs from 'node:fs';
import path from 'node:path';
import { moduleOf } from '../../bridge/read.mjs';
import { textOf } from '../../bridge/write.mjs';
import { bundled, check, deepEqual, equal, fileOf, here, imported, inFolder } from './check.mjs';

// Each kind of node that a module of ECMAScript 2022 can have: `with` is none of strict code.
const kinds = `ArrayLit ArrayPat ArrowExpr AssignExpr AssignPat AssignPatProp AwaitExpr BigInt BinExpr BindingIdent BlockStmt Bool
  BreakStmt CallExpr CatchClause Class ClassDecl ClassExpr ClassMethod ClassProp ComputedPropName CondExpr Constructor
  ContinueStmt DebuggerStmt DoWhileStmt EmptyStmt ExportAll ExportDecl ExportDefaultDecl ExportDefaultExpr ExportNamedSpecifier
  ExportNamespaceSpecifier ExprOrSpread ExprStmt FnDecl FnExpr ForInStmt ForOfStmt ForStmt Function GetterProp Ident IdentName
  IfStmt Import ImportDecl ImportDefaultSpecifier ImportNamedSpecifier ImportStarAsSpecifier KeyValuePatProp KeyValueProp
  LabeledStmt MemberExpr MetaPropExpr MethodProp Module NamedExport NewExpr Null Number ObjectLit ObjectPat OptCall OptChainExpr
  Param ParenExpr PrivateMethod PrivateName PrivateProp Regex RestPat ReturnStmt SeqExpr SetterProp SpreadElement StaticBlock Str
  Super SuperPropExpr SwitchCase SwitchStmt TaggedTpl ThisExpr ThrowStmt Tpl TplElement TryStmt UnaryExpr UpdateExpr VarDecl
  VarDeclarator WhileStmt YieldExpr`.split(/\s+/);

// The printer puts a second pair of parentheses round some that are there, and `()` behind each `new C`.
const alike = (form) => {
  if (form === null || typeof form !== 'object') return form;
  if (form.type === 'ParenExpr' && form.expr.type === 'ParenExpr') return alike(form.expr);
  if (form.type === 'NewExpr' && form.args === null) return alike({ ...form, args: [] });
  if (Array.isArray(form)) return form.map(alike);
  return Object.fromEntries(Object.entries(form).map(([key, part]) => [key, alike(part)]));
};

const seen = new Set();
function note(form) {
  if (form === null || typeof form !== 'object') return;
  if (form.type) seen.add(form.type);
  Object.values(form).forEach(note);
}

for (const name of inFolder('forms').filter((it) => it.endsWith('.js'))) {
  const file = path.join(here, 'forms', name);
  const form = moduleOf(fs.readFileSync(file, 'utf8'), name);
  note(form);
  const text = textOf(form);
  const printed = fileOf('printed.mjs', text);
  const original = imported(file);
  check(`${name}: printed, it reads as the same tree`, () => {
    deepEqual(alike(moduleOf(text, name)), alike(form));
  });
  check(`${name}: printed, it does and exports the same`, () => deepEqual(imported(printed), original));
  check(`${name}: bundled alone, it does and exports the same`, () => {
    const bundle = path.join(path.dirname(printed), 'bundle.mjs');
    const { status, stderr } = bundled([file, '-o', bundle]);
    equal(status, 0, stderr);
    deepEqual(imported(bundle), original);
  });
}

check('the files have each kind of node', () => deepEqual([...seen].sort(), kinds.sort()));

// Trees by hand, where two spellings are told apart by one field alone.
const expression = (source) => moduleOf(source, 'by hand').body[0].expr;
const ident = (sym) => ({ type: 'Ident', sym });
const byHand = {
  'new C': { type: 'NewExpr', callee: ident('C'), args: null },
  'new C()': { type: 'NewExpr', callee: ident('C'), args: [] },
  'a?.b': {
    type: 'OptChainExpr', optional: true, base: { type: 'MemberExpr', obj: ident('a'), prop: { type: 'IdentName', sym: 'b' } },
  },
  '[,a]': { type: 'ArrayLit', elems: [null, { type: 'ExprOrSpread', spread: false, expr: ident('a') }] },
  '--a': { type: 'UpdateExpr', op: '--', prefix: true, arg: ident('a') },
  '(a)': { type: 'ParenExpr', expr: ident('a') },
  "'\\x61'": { type: 'Str', value: 'a', raw: "'\\x61'" },
};
for (const [source, form] of Object.entries(byHand)) {
  check(`${source} is read as its tree`, () => deepEqual(expression(source), form));
}
