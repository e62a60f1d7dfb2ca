// Makers of the nodes that the graphs are made of, in the form of docs/DOCUMENT.md. What may be left out is left out.

export const id = (sym) => ({ type: 'Ident', sym });
export const word = (sym) => ({ type: 'IdentName', sym });
export const text = (value) => ({ type: 'Str', value });
export const number = (value) => ({ type: 'Number', raw: String(value) });
const spelled = (it) => (typeof it === 'string' ? id(it) : typeof it === 'number' ? number(it) : it);

// Expressions. Where one is wanted, a text stands for the identifier and a number for the literal.
const element = (it) => ({ type: 'ExprOrSpread', expr: spelled(it) });
export const call = (callee, ...args) => ({ type: 'CallExpr', callee: spelled(callee), args: args.map(element) });
export const made = (callee) => ({ type: 'NewExpr', callee: id(callee), args: [] });
export const member = (obj, name) => ({ type: 'MemberExpr', obj: spelled(obj), prop: word(name) });
export const binary = (left, op, right) => ({ type: 'BinExpr', op, left: spelled(left), right: spelled(right) });
export const chosen = (test, cons, alt) => ({ type: 'CondExpr', test, cons: spelled(cons), alt: spelled(alt) });
export const array = (elems) => ({ type: 'ArrayLit', elems: elems.map(element) });
export const object = (props) => ({ type: 'ObjectLit', props });
export const property = (key, value) => ({ type: 'KeyValueProp', key: word(key), value: spelled(value) });
export const method = (key, params, body) => ({ type: 'MethodProp', key: word(key), function: callable(params, body) });
export const arrow = (params, body) => ({ type: 'ArrowExpr', params: params.map(binding), body: spelled(body) });
export const lambda = (params, body) => ({ type: 'FnExpr', function: callable(params, body) });
export const assigned = (left, right) => ({ type: 'AssignExpr', op: '=', left, right: spelled(right) });
export const meta = () => ({ type: 'MetaPropExpr', kind: 'import.meta' });

// Patterns. A pair is a name with its default.
const named = (sym) => ({ type: 'BindingIdent', id: id(sym) });
const binding = (it) => (Array.isArray(it) ? { type: 'AssignPat', left: named(it[0]), right: it[1] } : named(it));
const callable = (params, body) => ({
  type: 'Function', params: params.map((it) => ({ type: 'Param', pat: binding(it) })), body: block(body),
});

// Statements.
export const block = (stmts) => ({ type: 'BlockStmt', stmts });
export const run = (expr) => ({ type: 'ExprStmt', expr });
export const given = (expr) => ({ type: 'ReturnStmt', arg: spelled(expr) });
export const variables = (kind, ...pairs) => ({
  type: 'VarDecl', kind, decls: pairs.map(([sym, init]) => ({ type: 'VarDeclarator', name: named(sym), init: spelled(init) })),
});
export const constant = (sym, init) => variables('const', [sym, init]);
export const declared = (sym, params, body) => ({ type: 'FnDecl', ident: id(sym), function: callable(params, body) });
export const each = (sym, right, body) => ({
  type: 'ForOfStmt', left: { type: 'VarDecl', kind: 'const', decls: [{ type: 'VarDeclarator', name: named(sym) }] }, right, body: block(body),
});

// What a module asks for and gives.
export const imported = (specifier, names) => ({
  type: 'ImportDecl',
  src: text(specifier),
  specifiers: names.map(([imported, local]) => ({ type: 'ImportNamedSpecifier', imported: id(imported), local: id(local) })),
});
export const whole = (specifier, local) => ({
  type: 'ImportDecl', src: text(specifier), specifiers: [{ type: 'ImportStarAsSpecifier', local: id(local) }],
});
export const exported = (decl) => ({ type: 'ExportDecl', decl });
export const starred = (specifier) => ({ type: 'ExportAll', src: text(specifier) });
