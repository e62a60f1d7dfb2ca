// The form of a module (docs/DOCUMENT.md, "The form of trees") to JavaScript source text.
import { generate } from './babel.mjs';

/** The source text of the module with this form. */
export function textOf(module) {
  const program = node('Program', { sourceType: 'module', directives: [], body: list(module.body) });
  // Letters outside ASCII stay as they are in strings without a source text.
  return generate(node('File', { program }), { comments: false, jsescOption: { minimal: true } }).code;
}

// A node of Babel's tree for a form.
function nodeOf(form) {
  if (!Object.hasOwn(nodes, form.type)) throw new Error(`${form.type} is no node`);
  return nodes[form.type](form);
}

const node = (type, fields) => ({ type, ...fields });
const optional = (form) => (form == null ? null : nodeOf(form));
const list = (forms) => forms.map(optional);

const identifier = (name) => node('Identifier', { name });
// A literal of this source text. The printer takes the text where both values are one.
const literal = (type, raw, value = raw) => node(type, {
  value, ...(raw == null ? {} : { extra: { raw, rawValue: value } }),
});
const regularExpression = ({ raw }) => {
  const end = raw.lastIndexOf('/');
  return node('RegExpLiteral', { pattern: raw.slice(1, end), flags: raw.slice(end + 1) });
};
const functionParts = (form) => ({
  params: list(form.params),
  body: nodeOf(form.body),
  generator: form.is_generator,
  async: form.is_async,
});
const accessorParts = (params, body) => ({
  params: list(params), body: nodeOf(body), generator: false, async: false,
});
const classParts = (form) => ({
  superClass: optional(form.super_class), body: node('ClassBody', { body: list(form.body) }),
});
const isComputed = (name) => name.type === 'ComputedPropName';
const keyParts = (name) => ({ key: nodeOf(isComputed(name) ? name.expr : name), computed: isComputed(name) });
const propertyParts = (name) => ({
  property: nodeOf(isComputed(name) ? name.expr : name), computed: isComputed(name),
});
const memberParts = (form) => ({ object: nodeOf(form.obj), ...propertyParts(form.prop) });
const methodKinds = { method: 'method', getter: 'get', setter: 'set' };
const objectMethod = (kind, form, parts) => node('ObjectMethod', { kind, ...keyParts(form.key), ...parts });
const shorthand = (form, value) => node('ObjectProperty', {
  key: nodeOf(form), value, computed: false, shorthand: true,
});
const longhand = (form) => node('ObjectProperty', {
  ...keyParts(form.key), value: nodeOf(form.value), shorthand: false,
});

const modules = {
  ImportDecl: (form) => node('ImportDeclaration', {
    specifiers: list(form.specifiers), source: nodeOf(form.src),
  }),
  ImportNamedSpecifier: (form) => node('ImportSpecifier', {
    local: nodeOf(form.local), imported: nodeOf(form.imported ?? form.local),
  }),
  ImportDefaultSpecifier: (form) => node('ImportDefaultSpecifier', { local: nodeOf(form.local) }),
  ImportStarAsSpecifier: (form) => node('ImportNamespaceSpecifier', { local: nodeOf(form.local) }),
  ExportDecl: (form) => node('ExportNamedDeclaration', {
    declaration: nodeOf(form.decl), specifiers: [], source: null,
  }),
  NamedExport: (form) => node('ExportNamedDeclaration', {
    declaration: null, specifiers: list(form.specifiers), source: optional(form.src),
  }),
  ExportNamespaceSpecifier: (form) => node('ExportNamespaceSpecifier', { exported: nodeOf(form.name) }),
  ExportNamedSpecifier: (form) => node('ExportSpecifier', {
    local: nodeOf(form.orig), exported: nodeOf(form.exported ?? form.orig),
  }),
  ExportDefaultDecl: ({ decl }) => node('ExportDefaultDeclaration', {
    declaration: decl.type === 'FnExpr'
      ? node('FunctionDeclaration', { id: optional(decl.ident), ...functionParts(decl.function) })
      : node('ClassDeclaration', { id: optional(decl.ident), ...classParts(decl.class) }),
  }),
  ExportDefaultExpr: (form) => node('ExportDefaultDeclaration', { declaration: nodeOf(form.expr) }),
  ExportAll: (form) => node('ExportAllDeclaration', { source: nodeOf(form.src) }),
};

const statements = {
  BlockStmt: (form) => node('BlockStatement', { directives: [], body: list(form.stmts) }),
  EmptyStmt: () => node('EmptyStatement'),
  DebuggerStmt: () => node('DebuggerStatement'),
  WithStmt: (form) => node('WithStatement', { object: nodeOf(form.obj), body: nodeOf(form.body) }),
  ReturnStmt: (form) => node('ReturnStatement', { argument: optional(form.arg) }),
  ThrowStmt: (form) => node('ThrowStatement', { argument: nodeOf(form.arg) }),
  LabeledStmt: (form) => node('LabeledStatement', { label: nodeOf(form.label), body: nodeOf(form.body) }),
  BreakStmt: (form) => node('BreakStatement', { label: optional(form.label) }),
  ContinueStmt: (form) => node('ContinueStatement', { label: optional(form.label) }),
  IfStmt: (form) => node('IfStatement', {
    test: nodeOf(form.test), consequent: nodeOf(form.cons), alternate: optional(form.alt),
  }),
  SwitchStmt: (form) => node('SwitchStatement', {
    discriminant: nodeOf(form.discriminant), cases: list(form.cases),
  }),
  SwitchCase: (form) => node('SwitchCase', { test: optional(form.test), consequent: list(form.cons) }),
  TryStmt: (form) => node('TryStatement', {
    block: nodeOf(form.block), handler: optional(form.handler), finalizer: optional(form.finalizer),
  }),
  CatchClause: (form) => node('CatchClause', { param: optional(form.param), body: nodeOf(form.body) }),
  WhileStmt: (form) => node('WhileStatement', { test: nodeOf(form.test), body: nodeOf(form.body) }),
  DoWhileStmt: (form) => node('DoWhileStatement', { test: nodeOf(form.test), body: nodeOf(form.body) }),
  ForStmt: (form) => node('ForStatement', {
    init: optional(form.init),
    test: optional(form.test),
    update: optional(form.update),
    body: nodeOf(form.body),
  }),
  ForInStmt: (form) => node('ForInStatement', {
    left: nodeOf(form.left), right: nodeOf(form.right), body: nodeOf(form.body),
  }),
  ForOfStmt: (form) => node('ForOfStatement', {
    await: form.is_await, left: nodeOf(form.left), right: nodeOf(form.right), body: nodeOf(form.body),
  }),
  FnDecl: (form) => node('FunctionDeclaration', { id: nodeOf(form.ident), ...functionParts(form.function) }),
  ClassDecl: (form) => node('ClassDeclaration', { id: nodeOf(form.ident), ...classParts(form.class) }),
  VarDecl: (form) => node('VariableDeclaration', { kind: form.kind, declarations: list(form.decls) }),
  VarDeclarator: (form) => node('VariableDeclarator', { id: nodeOf(form.name), init: optional(form.init) }),
  ExprStmt: (form) => node('ExpressionStatement', { expression: nodeOf(form.expr) }),
};

const patterns = {
  Param: (form) => nodeOf(form.pat),
  BindingIdent: (form) => nodeOf(form.id),
  ArrayPat: (form) => node('ArrayPattern', { elements: list(form.elems) }),
  RestPat: (form) => node('RestElement', { argument: nodeOf(form.arg) }),
  AssignPat: (form) => node('AssignmentPattern', { left: nodeOf(form.left), right: nodeOf(form.right) }),
  ObjectPat: (form) => node('ObjectPattern', { properties: list(form.props) }),
  KeyValuePatProp: longhand,
  AssignPatProp: (form) => shorthand(form.key, form.value == null
    ? nodeOf(form.key)
    : node('AssignmentPattern', { left: nodeOf(form.key), right: nodeOf(form.value) })),
};

const members = {
  Constructor: (form) => node('ClassMethod', {
    kind: 'constructor',
    key: identifier('constructor'),
    computed: false,
    static: false,
    ...accessorParts(form.params, form.body),
  }),
  ClassMethod: (form) => node('ClassMethod', {
    kind: methodKinds[form.kind], static: form.is_static, ...keyParts(form.key), ...functionParts(form.function),
  }),
  PrivateMethod: (form) => node('ClassPrivateMethod', {
    kind: methodKinds[form.kind], static: form.is_static, key: nodeOf(form.key), ...functionParts(form.function),
  }),
  ClassProp: (form) => node('ClassProperty', {
    static: form.is_static, ...keyParts(form.key), value: optional(form.value),
  }),
  PrivateProp: (form) => node('ClassPrivateProperty', {
    static: form.is_static, key: nodeOf(form.key), value: optional(form.value),
  }),
  StaticBlock: (form) => node('StaticBlock', { body: list(form.body.stmts) }),
};

const names = {
  Ident: (form) => identifier(form.sym),
  IdentName: (form) => identifier(form.sym),
  PrivateName: (form) => node('PrivateName', { id: identifier(form.sym) }),
};

const literals = {
  Str: (form) => literal('StringLiteral', form.raw, form.value),
  Number: (form) => literal('NumericLiteral', form.raw),
  BigInt: (form) => literal('BigIntLiteral', form.raw),
  Bool: (form) => node('BooleanLiteral', { value: form.value }),
  Null: () => node('NullLiteral'),
  Regex: regularExpression,
};

const properties = {
  SpreadElement: (form) => node('SpreadElement', { argument: nodeOf(form.expr) }),
  KeyValueProp: longhand,
  GetterProp: (form) => objectMethod('get', form, accessorParts([], form.body)),
  SetterProp: (form) => objectMethod('set', form, accessorParts([form.param], form.body)),
  MethodProp: (form) => objectMethod('method', form, functionParts(form.function)),
};
const propertyOf = (form) => (form.type === 'Ident' ? shorthand(form, nodeOf(form)) : nodeOf(form));

const logical = new Set(['&&', '||', '??']);

const expressions = {
  ThisExpr: () => node('ThisExpression'),
  Super: () => node('Super'),
  Import: () => node('Import'),
  ArrayLit: (form) => node('ArrayExpression', { elements: list(form.elems) }),
  ExprOrSpread: (form) => (form.spread ? node('SpreadElement', { argument: nodeOf(form.expr) }) : nodeOf(form.expr)),
  ObjectLit: (form) => node('ObjectExpression', { properties: form.props.map(propertyOf) }),
  FnExpr: (form) => node('FunctionExpression', { id: optional(form.ident), ...functionParts(form.function) }),
  ClassExpr: (form) => node('ClassExpression', { id: optional(form.ident), ...classParts(form.class) }),
  ArrowExpr: (form) => node('ArrowFunctionExpression', {
    params: list(form.params), body: nodeOf(form.body), async: form.is_async,
  }),
  UnaryExpr: (form) => node('UnaryExpression', { operator: form.op, prefix: true, argument: nodeOf(form.arg) }),
  UpdateExpr: (form) => node('UpdateExpression', {
    operator: form.op, prefix: form.prefix, argument: nodeOf(form.arg),
  }),
  BinExpr: (form) => node(logical.has(form.op) ? 'LogicalExpression' : 'BinaryExpression', {
    operator: form.op, left: nodeOf(form.left), right: nodeOf(form.right),
  }),
  AssignExpr: (form) => node('AssignmentExpression', {
    operator: form.op, left: nodeOf(form.left), right: nodeOf(form.right),
  }),
  MemberExpr: (form) => node('MemberExpression', memberParts(form)),
  SuperPropExpr: (form) => node('MemberExpression', { object: node('Super'), ...propertyParts(form.prop) }),
  CallExpr: (form) => node('CallExpression', { callee: nodeOf(form.callee), arguments: list(form.args) }),
  OptChainExpr: ({ optional: isOptional, base }) => (base.type === 'OptCall'
    ? node('OptionalCallExpression', {
      callee: nodeOf(base.callee), arguments: list(base.args), optional: isOptional,
    })
    : node('OptionalMemberExpression', { ...memberParts(base), optional: isOptional })),
  CondExpr: (form) => node('ConditionalExpression', {
    test: nodeOf(form.test), consequent: nodeOf(form.cons), alternate: nodeOf(form.alt),
  }),
  NewExpr: (form) => node('NewExpression', { callee: nodeOf(form.callee), arguments: list(form.args ?? []) }),
  SeqExpr: (form) => node('SequenceExpression', { expressions: list(form.exprs) }),
  Tpl: (form) => node('TemplateLiteral', {
    expressions: list(form.exprs),
    quasis: form.quasis.map(({ raw }, at) => node('TemplateElement', {
      value: { raw }, tail: at === form.exprs.length,
    })),
  }),
  TaggedTpl: (form) => node('TaggedTemplateExpression', { tag: nodeOf(form.tag), quasi: nodeOf(form.tpl) }),
  YieldExpr: (form) => node('YieldExpression', { argument: optional(form.arg), delegate: form.delegate }),
  AwaitExpr: (form) => node('AwaitExpression', { argument: nodeOf(form.arg) }),
  MetaPropExpr: (form) => {
    const [meta, property] = form.kind.split('.');
    return node('MetaProperty', { meta: identifier(meta), property: identifier(property) });
  },
  ParenExpr: (form) => node('ParenthesizedExpression', { expression: nodeOf(form.expr) }),
};

const nodes = {
  ...modules, ...statements, ...patterns, ...members, ...names, ...literals, ...properties, ...expressions,
};
