// JavaScript source text to the form of a module (docs/DOCUMENT.md, "The form of trees").
import { parse } from './babel.mjs';
import { failureAt } from './failure.mjs';

// What Babel is told of each goal. A CommonJS module is the body of a function, and its code is strict here.
const goals = {
  module: { sourceType: 'module' },
  commonjs: {
    sourceType: 'script',
    strictMode: true,
    allowReturnOutsideFunction: true,
    allowNewTargetOutsideFunction: true,
  },
};
const options = {
  createParenthesizedExpressions: true,
  attachComment: false,
  // What the linker judges itself, doubled declarations and exports among it, is passed on to it.
  errorRecovery: true,
  allowUndeclaredExports: true,
};
const judgedByLinker = new Set([
  'VarRedeclaration', 'DuplicateExport', 'DuplicateDefaultExport', 'StrictWith',
]);

// Where each node of a form stands in its source.
const places = new WeakMap();

/** Where a node that was read stands: `line` from 1, `column` from 0. */
export const placeOf = (form) => places.get(form);

/** The form of the module with this source text, read with this goal; `file` is what failures call it. */
export function moduleOf(source, file, goal = 'module') {
  try {
    const { errors, program } = parse(source, { ...options, ...goals[goal] });
    const bad = errors.find((error) => !judgedByLinker.has(error.reasonCode));
    if (bad) throw bad;
    return { type: 'Module', body: statements(program).map(item) };
  } catch (error) {
    if (error.loc) throw failureAt(file, error.loc, error.message.replace(/ \(\d+:\d+\)$/, ''));
    throw error;
  }
}

// The form that the table's function of a node's type gives, with its place.
function formOf(table, node) {
  if (!Object.hasOwn(table, node.type)) throw refused(node, `${node.type} is not of ECMAScript 2022`);
  const form = table[node.type](node);
  places.set(form, node.loc.start);
  return form;
}

const refused = (node, message) => Object.assign(new Error(message), { loc: node.loc.start });

const list = (form) => (nodes) => nodes.map((node) => (node === null ? null : form(node)));
const optional = (form) => (node) => (node == null ? null : form(node));

// Names and texts.

const identifier = (sym) => ({ type: 'Ident', sym });
const optionalIdentifier = optional((node) => identifier(node.name));
const word = (sym) => ({ type: 'IdentName', sym });
const label = optional((node) => word(node.name));
const privateName = (node) => ({ type: 'PrivateName', sym: node.id.name });
const source = (type) => (node) => ({ type, raw: node.extra.raw });

function text(node, value) {
  if (/\p{Surrogate}/u.test(value)) throw refused(node, 'a text with half of a surrogate pair has no form');
  const form = { type: 'Str', value, raw: node.extra.raw };
  places.set(form, node.loc.start);
  return form;
}
const string = (node) => text(node, node.value);
const directive = ({ value }) => ({ type: 'ExprStmt', expr: text(value, value.extra.expressionValue) });

// Imports and exports.

const exportName = (node) => (node.type === 'StringLiteral' ? string(node) : identifier(node.name));
// `x` and `x as x` are told apart by where their names stand.
const otherName = (name, local) => (name.start === local.start ? null : exportName(name));

const specifiers = {
  ImportDefaultSpecifier: (node) => ({ type: 'ImportDefaultSpecifier', local: identifier(node.local.name) }),
  ImportNamespaceSpecifier: (node) => ({ type: 'ImportStarAsSpecifier', local: identifier(node.local.name) }),
  ImportSpecifier: (node) => ({
    type: 'ImportNamedSpecifier',
    local: identifier(node.local.name),
    imported: otherName(node.imported, node.local),
  }),
  ExportNamespaceSpecifier: (node) => ({ type: 'ExportNamespaceSpecifier', name: exportName(node.exported) }),
  ExportSpecifier: (node) => ({
    type: 'ExportNamedSpecifier',
    orig: exportName(node.local),
    exported: otherName(node.exported, node.local),
  }),
};
const specifierList = list((node) => formOf(specifiers, node));

const defaults = {
  FunctionDeclaration: (node) => ({
    type: 'ExportDefaultDecl',
    decl: { type: 'FnExpr', ident: optionalIdentifier(node.id), function: functionForm(node) },
  }),
  ClassDeclaration: (node) => ({
    type: 'ExportDefaultDecl',
    decl: { type: 'ClassExpr', ident: optionalIdentifier(node.id), class: classForm(node) },
  }),
};

const items = {
  ImportDeclaration: (node) => ({
    type: 'ImportDecl',
    src: string(node.source),
    specifiers: specifierList(node.specifiers),
  }),
  ExportNamedDeclaration: (node) => (node.declaration
    ? { type: 'ExportDecl', decl: statement(node.declaration) }
    : { type: 'NamedExport', src: optional(string)(node.source), specifiers: specifierList(node.specifiers) }),
  ExportAllDeclaration: (node) => ({ type: 'ExportAll', src: string(node.source) }),
  ExportDefaultDeclaration: ({ declaration }) => (Object.hasOwn(defaults, declaration.type)
    ? defaults[declaration.type](declaration)
    : { type: 'ExportDefaultExpr', expr: expression(declaration) }),
};
const item = (node) => (Object.hasOwn(items, node.type) ? formOf(items, node) : statement(node));

// Statements and declarations.

const statements = ({ directives, body }) => [...directives, ...body];
const block = (node) => ({ type: 'BlockStmt', stmts: list(statement)(statements(node)) });
const loopHead = (node) => (node.type === 'VariableDeclaration' ? statement(node) : pattern(node));
const loopStart = (node) => (node.type === 'VariableDeclaration' ? statement(node) : expression(node));

const handler = (node) => ({
  type: 'CatchClause', param: optional(pattern)(node.param), body: block(node.body),
});
const switchCase = (node) => ({
  type: 'SwitchCase', test: optional(expression)(node.test), cons: list(statement)(node.consequent),
});
const declarator = (node) => ({
  type: 'VarDeclarator', name: pattern(node.id), init: optional(expression)(node.init),
});

const statementForms = {
  Directive: directive,
  BlockStatement: block,
  EmptyStatement: () => ({ type: 'EmptyStmt' }),
  DebuggerStatement: () => ({ type: 'DebuggerStmt' }),
  WithStatement: (node) => ({ type: 'WithStmt', obj: expression(node.object), body: statement(node.body) }),
  ReturnStatement: (node) => ({ type: 'ReturnStmt', arg: optional(expression)(node.argument) }),
  LabeledStatement: (node) => ({ type: 'LabeledStmt', label: label(node.label), body: statement(node.body) }),
  BreakStatement: (node) => ({ type: 'BreakStmt', label: label(node.label) }),
  ContinueStatement: (node) => ({ type: 'ContinueStmt', label: label(node.label) }),
  IfStatement: (node) => ({
    type: 'IfStmt',
    test: expression(node.test),
    cons: statement(node.consequent),
    alt: optional(statement)(node.alternate),
  }),
  SwitchStatement: (node) => ({
    type: 'SwitchStmt',
    discriminant: expression(node.discriminant),
    cases: node.cases.map(switchCase),
  }),
  ThrowStatement: (node) => ({ type: 'ThrowStmt', arg: expression(node.argument) }),
  TryStatement: (node) => ({
    type: 'TryStmt',
    block: block(node.block),
    handler: optional(handler)(node.handler),
    finalizer: optional(block)(node.finalizer),
  }),
  WhileStatement: (node) => ({ type: 'WhileStmt', test: expression(node.test), body: statement(node.body) }),
  DoWhileStatement: (node) => ({ type: 'DoWhileStmt', body: statement(node.body), test: expression(node.test) }),
  ForStatement: (node) => ({
    type: 'ForStmt',
    init: optional(loopStart)(node.init),
    test: optional(expression)(node.test),
    update: optional(expression)(node.update),
    body: statement(node.body),
  }),
  ForInStatement: (node) => ({
    type: 'ForInStmt', left: loopHead(node.left), right: expression(node.right), body: statement(node.body),
  }),
  ForOfStatement: (node) => ({
    type: 'ForOfStmt',
    is_await: node.await,
    left: loopHead(node.left),
    right: expression(node.right),
    body: statement(node.body),
  }),
  FunctionDeclaration: (node) => ({
    type: 'FnDecl', ident: identifier(node.id.name), function: functionForm(node),
  }),
  ClassDeclaration: (node) => ({ type: 'ClassDecl', ident: identifier(node.id.name), class: classForm(node) }),
  VariableDeclaration: (node) => ({
    type: 'VarDecl', kind: node.kind, decls: node.declarations.map(declarator),
  }),
  ExpressionStatement: (node) => ({ type: 'ExprStmt', expr: expression(node.expression) }),
};
const statement = (node) => formOf(statementForms, node);

// Functions and classes.

const functionForm = (node) => ({
  type: 'Function',
  params: node.params.map((param) => ({ type: 'Param', pat: pattern(param) })),
  body: block(node.body),
  is_generator: node.generator === true,
  is_async: node.async === true,
});

const key = ({ key: name, computed }) => {
  if (computed) return { type: 'ComputedPropName', expr: expression(name) };
  return name.type === 'Identifier' ? word(name.name) : expression(name);
};
const methodKinds = { method: 'method', get: 'getter', set: 'setter' };
const constructorForm = (node) => {
  const { params, body } = functionForm(node);
  return { type: 'Constructor', params, body };
};

const members = {
  StaticBlock: (node) => ({
    type: 'StaticBlock', body: { type: 'BlockStmt', stmts: list(statement)(node.body) },
  }),
  ClassMethod: (node) => (node.kind === 'constructor' ? constructorForm(node) : {
    type: 'ClassMethod',
    key: key(node),
    function: functionForm(node),
    kind: methodKinds[node.kind],
    is_static: node.static,
  }),
  ClassPrivateMethod: (node) => ({
    type: 'PrivateMethod',
    key: privateName(node.key),
    function: functionForm(node),
    kind: methodKinds[node.kind],
    is_static: node.static,
  }),
  ClassProperty: (node) => ({
    type: 'ClassProp', key: key(node), value: optional(expression)(node.value), is_static: node.static,
  }),
  ClassPrivateProperty: (node) => ({
    type: 'PrivateProp',
    key: privateName(node.key),
    value: optional(expression)(node.value),
    is_static: node.static,
  }),
};
const classForm = (node) => ({
  type: 'Class',
  super_class: optional(expression)(node.superClass),
  body: node.body.body.map((member) => formOf(members, member)),
});

// Patterns.

const patternProperty = (node) => {
  if (node.type === 'RestElement') return pattern(node);
  if (!node.shorthand) return { type: 'KeyValuePatProp', key: key(node), value: pattern(node.value) };
  const value = node.value.type === 'AssignmentPattern' ? expression(node.value.right) : null;
  return { type: 'AssignPatProp', key: pattern(node.key), value };
};
const patterns = {
  Identifier: (node) => ({ type: 'BindingIdent', id: identifier(node.name) }),
  ArrayPattern: (node) => ({ type: 'ArrayPat', elems: list(pattern)(node.elements) }),
  RestElement: (node) => ({ type: 'RestPat', arg: pattern(node.argument) }),
  AssignmentPattern: (node) => ({ type: 'AssignPat', left: pattern(node.left), right: expression(node.right) }),
  ObjectPattern: (node) => ({ type: 'ObjectPat', props: node.properties.map(patternProperty) }),
};
const pattern = (node) => (Object.hasOwn(patterns, node.type) ? formOf(patterns, node) : expression(node));

// Expressions.

const spreadOr = (node) => (node.type === 'SpreadElement'
  ? { type: 'ExprOrSpread', spread: true, expr: expression(node.argument) }
  : { type: 'ExprOrSpread', spread: false, expr: expression(node) });
const elements = list(spreadOr);

const property = (node) => {
  if (node.computed) return { type: 'ComputedPropName', expr: expression(node.property) };
  return node.property.type === 'PrivateName' ? privateName(node.property) : word(node.property.name);
};
const member = (node) => ({ type: 'MemberExpr', obj: expression(node.object), prop: property(node) });
const callee = (node) => (['Super', 'Import'].includes(node.type) ? { type: node.type } : expression(node));
const template = (node) => ({
  type: 'Tpl',
  exprs: list(expression)(node.expressions),
  quasis: node.quasis.map((part) => ({ type: 'TplElement', raw: part.value.raw })),
});
const binary = (node) => ({
  type: 'BinExpr', op: node.operator, left: expression(node.left), right: expression(node.right),
});

const objectMethods = {
  get: (node) => ({ type: 'GetterProp', key: key(node), body: block(node.body) }),
  set: (node) => ({
    type: 'SetterProp', key: key(node), param: pattern(node.params[0]), body: block(node.body),
  }),
  method: (node) => ({ type: 'MethodProp', key: key(node), function: functionForm(node) }),
};
const properties = {
  SpreadElement: (node) => ({ type: 'SpreadElement', expr: expression(node.argument) }),
  ObjectProperty: (node) => (node.shorthand
    ? identifier(node.key.name)
    : { type: 'KeyValueProp', key: key(node), value: expression(node.value) }),
  ObjectMethod: (node) => objectMethods[node.kind](node),
};

const expressions = {
  Identifier: (node) => identifier(node.name),
  PrivateName: privateName,
  StringLiteral: string,
  NumericLiteral: source('Number'),
  BigIntLiteral: source('BigInt'),
  RegExpLiteral: source('Regex'),
  BooleanLiteral: (node) => ({ type: 'Bool', value: node.value }),
  NullLiteral: () => ({ type: 'Null' }),
  ThisExpression: () => ({ type: 'ThisExpr' }),
  ArrayExpression: (node) => ({ type: 'ArrayLit', elems: elements(node.elements) }),
  ObjectExpression: (node) => ({
    type: 'ObjectLit', props: node.properties.map((part) => formOf(properties, part)),
  }),
  FunctionExpression: (node) => ({
    type: 'FnExpr', ident: optionalIdentifier(node.id), function: functionForm(node),
  }),
  ClassExpression: (node) => ({
    type: 'ClassExpr', ident: optionalIdentifier(node.id), class: classForm(node),
  }),
  ArrowFunctionExpression: (node) => ({
    type: 'ArrowExpr',
    params: list(pattern)(node.params),
    body: node.body.type === 'BlockStatement' ? block(node.body) : expression(node.body),
    is_async: node.async,
  }),
  UnaryExpression: (node) => ({ type: 'UnaryExpr', op: node.operator, arg: expression(node.argument) }),
  UpdateExpression: (node) => ({
    type: 'UpdateExpr', op: node.operator, prefix: node.prefix, arg: expression(node.argument),
  }),
  BinaryExpression: binary,
  LogicalExpression: binary,
  AssignmentExpression: (node) => ({
    type: 'AssignExpr', op: node.operator, left: pattern(node.left), right: expression(node.right),
  }),
  MemberExpression: (node) => (node.object.type === 'Super'
    ? { type: 'SuperPropExpr', prop: property(node) }
    : member(node)),
  CallExpression: (node) => ({
    type: 'CallExpr', callee: callee(node.callee), args: elements(node.arguments),
  }),
  OptionalMemberExpression: (node) => ({ type: 'OptChainExpr', optional: node.optional, base: member(node) }),
  OptionalCallExpression: (node) => ({
    type: 'OptChainExpr',
    optional: node.optional,
    base: { type: 'OptCall', callee: expression(node.callee), args: elements(node.arguments) },
  }),
  ConditionalExpression: (node) => ({
    type: 'CondExpr',
    test: expression(node.test),
    cons: expression(node.consequent),
    alt: expression(node.alternate),
  }),
  NewExpression: (node) => ({
    type: 'NewExpr',
    callee: expression(node.callee),
    // `new C` ends where its callee does, `new C()` behind it.
    args: node.end === node.callee.end ? null : elements(node.arguments),
  }),
  SequenceExpression: (node) => ({ type: 'SeqExpr', exprs: list(expression)(node.expressions) }),
  TemplateLiteral: template,
  TaggedTemplateExpression: (node) => ({
    type: 'TaggedTpl', tag: expression(node.tag), tpl: template(node.quasi),
  }),
  YieldExpression: (node) => ({
    type: 'YieldExpr', arg: optional(expression)(node.argument), delegate: node.delegate,
  }),
  AwaitExpression: (node) => ({ type: 'AwaitExpr', arg: expression(node.argument) }),
  MetaProperty: (node) => ({ type: 'MetaPropExpr', kind: `${node.meta.name}.${node.property.name}` }),
  ParenthesizedExpression: (node) => ({ type: 'ParenExpr', expr: expression(node.expression) }),
};
const expression = (node) => formOf(expressions, node);
