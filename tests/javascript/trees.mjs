// Random forms of modules: what the reader cannot make, as expressions without the parentheses that they need.
import { randomOf } from './mutants.mjs';

const operators = ['==', '!=', '===', '!==', '<', '<=', '>', '>=', '<<', '>>', '>>>', '+', '-', '*', '/', '%', '|', '^', '&',
  '||', '&&', 'in', 'instanceof', '**', '??'];
const assigning = ['=', '+=', '-=', '*=', '/=', '%=', '<<=', '>>=', '>>>=', '|=', '^=', '&=', '**=', '&&=', '||=', '??='];
const syms = ['a', 'b', 'async', 'of', 'get', 'set', 'static_', 'from', '\u00e9', '\u{20bb7}', '$'];
const numbers = ['0', '1', '1.5', '1.', '.5', '0x1f', '1e3', '0b1', '0o7', '1_0', '5e-7'];
const regexes = ['/a/', '/=/g', '/[/]/u', '/(?:)/', '/\\//'];
const strings = ['', 'a', "'", '"', '\'"', '\\', '\n\r\u2028\u2029', '\0', '\x001', '\u0007\b\f\v\t\x7f', '\u00e9\u{1f600}',
  '</script>', '${`', 'use strict', '\ufeff\u00a0\u200d'];
const raws = ['', 'a', '\\n', '$', '\\`', '\\${', '{', '\n', '\\u{61}', '\u00e9'];

// A maker of nodes of one seed. `where` says what may stand here: whether there is an `await`, a `yield`, a private name, a
// method around, a loop, a function.
class Maker {
  constructor(seed) {
    this.random = randomOf(seed);
  }

  of(list) { return list[this.random(list.length)]; }

  is(of = 2) { return this.random(of) === 0; }

  some(make, most = 3) { return Array.from({ length: this.random(most + 1) }, make); }

  ident() { return { type: 'Ident', sym: this.of(syms) }; }

  word() { return { type: 'IdentName', sym: this.of([...syms, 'if', 'static', 'await', 'new']) }; }

  string() { return { type: 'Str', value: this.of(strings) + (this.is(4) ? this.of(strings) : ''), raw: null }; }

  number() { return this.is(8) ? { type: 'BigInt', raw: '1n' } : { type: 'Number', raw: this.of(numbers) }; }

  leaf() {
    return this.of([
      () => this.ident(), () => this.ident(), () => this.ident(), () => this.number(), () => this.string(),
      () => ({ type: 'Bool', value: this.is() }), () => ({ type: 'Null' }), () => ({ type: 'ThisExpr' }),
      () => ({ type: 'Regex', raw: this.of(regexes) }), () => ({ type: 'MetaPropExpr', kind: 'import.meta' }),
    ])();
  }

  expression(depth, where) {
    if (depth <= 0) return this.leaf();
    const inner = (more = 1) => this.expression(depth - more, where);
    const makers = [
      () => ({ type: 'BinExpr', op: this.of(operators), left: inner(), right: inner() }),
      () => ({ type: 'BinExpr', op: this.of(operators), left: inner(), right: inner() }),
      () => this.unary(inner),
      () => ({ type: 'UpdateExpr', op: this.of(['++', '--']), prefix: this.is(), arg: this.is() ? this.ident() : this.member(depth - 1, where) }),
      () => this.assignment(depth - 1, where),
      () => ({ type: 'CondExpr', test: inner(), cons: inner(), alt: inner() }),
      () => ({ type: 'CallExpr', callee: inner(), args: this.arguments(depth - 1, where) }),
      () => ({ type: 'CallExpr', callee: { type: 'Import' }, args: [this.spread(depth - 1, where, false)] }),
      () => ({ type: 'NewExpr', callee: inner(), args: this.is() ? null : this.arguments(depth - 1, where) }),
      () => this.member(depth - 1, where),
      () => this.chain(depth - 1, where),
      () => ({ type: 'SeqExpr', exprs: [inner(), inner(), ...this.some(() => inner(2), 1)] }),
      () => this.arrow(depth - 1, where),
      () => ({ type: 'FnExpr', ident: this.is() ? null : this.ident(), function: this.function(depth - 1) }),
      () => ({ type: 'ClassExpr', ident: this.is() ? null : this.ident(), class: this.class(depth - 1, where) }),
      () => ({ type: 'ArrayLit', elems: this.some(() => (this.is(5) ? null : this.spread(depth - 1, where))) }),
      () => ({ type: 'ObjectLit', props: this.some(() => this.property(depth - 1, where)) }),
      () => this.template(depth - 1, where),
      () => ({ type: 'TaggedTpl', tag: inner(), tpl: this.template(depth - 1, where) }),
      () => this.leaf(),
    ];
    if (where.await) makers.push(() => ({ type: 'AwaitExpr', arg: inner() }));
    if (where.yield) {
      makers.push(() => {
        const delegate = this.is();
        return { type: 'YieldExpr', delegate, arg: delegate || this.is() ? inner() : null };
      });
    }
    if (where.private) {
      makers.push(() => ({ type: 'BinExpr', op: 'in', left: { type: 'PrivateName', sym: 'p' }, right: inner() }));
    }
    return this.of(makers)();
  }

  unary(inner) {
    const op = this.of(['-', '+', '!', '~', 'typeof', 'void', 'delete']);
    const arg = op === 'delete' ? { type: 'MemberExpr', obj: inner(), prop: this.word() } : inner();
    return { type: 'UnaryExpr', op, arg };
  }

  prop(depth, where) {
    if (where.private && this.is(6)) return { type: 'PrivateName', sym: 'p' };
    return this.is(3) ? { type: 'ComputedPropName', expr: this.expression(depth, where) } : this.word();
  }

  member(depth, where) {
    if (where.method && this.is(4)) return { type: 'SuperPropExpr', prop: this.prop(depth, { ...where, private: false }) };
    return { type: 'MemberExpr', obj: this.expression(depth, where), prop: this.prop(depth, where) };
  }

  chain(depth, where) {
    let link = this.expression(depth, where);
    const links = 1 + this.random(3);
    for (let at = 0; at < links; at += 1) {
      const base = this.is() ? { type: 'MemberExpr', obj: link, prop: this.prop(depth - 1, where) }
        : { type: 'OptCall', callee: link, args: this.arguments(depth - 1, where) };
      link = { type: 'OptChainExpr', optional: at === 0 || this.is(), base };
    }
    return link;
  }

  spread(depth, where, spread = this.is(5)) {
    return { type: 'ExprOrSpread', spread, expr: this.expression(depth, where) };
  }

  arguments(depth, where) { return this.some(() => this.spread(depth, where)); }

  template(depth, where) {
    const exprs = this.some(() => this.expression(depth, where), 2);
    return { type: 'Tpl', exprs, quasis: [...exprs, null].map(() => ({ type: 'TplElement', raw: this.of(raws) })) };
  }

  key(depth, where) {
    return this.of([
      () => this.word(), () => this.word(), () => this.string(), () => this.number(),
      () => ({ type: 'ComputedPropName', expr: this.expression(depth, where) }),
    ])();
  }

  property(depth, where) {
    const key = this.key(depth, where);
    const method = { ...where, method: true };
    return this.of([
      () => this.ident(),
      () => ({ type: 'KeyValueProp', key, value: this.expression(depth, where) }),
      () => ({ type: 'KeyValueProp', key, value: this.expression(depth, where) }),
      () => ({ type: 'SpreadElement', expr: this.expression(depth, where) }),
      () => ({ type: 'GetterProp', key, body: this.body(depth, { method: true, function: true }) }),
      () => ({ type: 'SetterProp', key, param: this.binding(depth, {}), body: this.body(depth, { method: true, function: true }) }),
      () => ({ type: 'MethodProp', key, function: this.function(depth, method) }),
    ])();
  }

  body(depth, where) { return { type: 'BlockStmt', stmts: this.some(() => this.statement(depth - 1, where), 2) }; }

  // Parameters have names of their own, so that no two are one.
  function(depth, { method = false, private: isPrivate = false } = {}) {
    const [is_async, is_generator] = [this.is(3), this.is(3)];
    return {
      type: 'Function',
      params: this.is() ? [{ type: 'Param', pat: this.binding(depth, { method, private: isPrivate }) }] : [],
      body: this.body(depth, { method, private: isPrivate, function: true, await: is_async, yield: is_generator }),
      is_generator,
      is_async,
    };
  }

  arrow(depth, where) {
    const is_async = this.is(3);
    const inner = { ...where, await: is_async, yield: false, function: true };
    const params = this.is() ? [this.binding(depth, { ...inner, await: false })] : [];
    const body = this.is() ? this.body(depth, inner) : this.expression(depth, inner);
    return { type: 'ArrowExpr', params, body, is_async };
  }

  class(depth, where) {
    const fields = { method: true, private: true, function: true };
    const is_static = () => this.is(3);
    const key = () => this.key(depth, { ...where, private: true });
    const value = () => (this.is() ? null : this.expression(depth, fields));
    const getter = () => ({
      type: 'Function', params: [], body: this.body(depth, fields), is_generator: false, is_async: false,
    });
    const method = (kind, made) => ({ type: 'ClassMethod', key: key(), function: made, kind, is_static: is_static() });
    const members = [
      () => ({ type: 'ClassProp', key: key(), value: value(), is_static: is_static() }),
      () => method('method', this.function(depth, fields)),
      () => method('getter', getter()),
      () => ({ type: 'StaticBlock', body: this.body(depth, { method: true, private: true }) }),
    ];
    const first = { type: 'PrivateProp', key: { type: 'PrivateName', sym: 'p' }, value: null, is_static: is_static() };
    return {
      type: 'Class',
      super_class: this.is() ? null : this.expression(depth, where),
      body: [first, ...this.some(() => this.of(members)(), 3)],
    };
  }

  // A target of an assignment that is no pattern.
  simple(depth, where) { return this.is() ? { type: 'BindingIdent', id: this.ident() } : this.member(depth, where); }

  assignment(depth, where) {
    const op = this.of(assigning);
    const left = op === '=' && this.is() ? this.target(depth, where, () => this.simple(depth - 1, where))
      : this.simple(depth, where);
    return { type: 'AssignExpr', op, left, right: this.expression(depth, where) };
  }

  // One name, or a pattern with one.
  binding(depth, where) {
    return depth > 0 && this.is(3) ? this.target(depth, where, () => ({ type: 'BindingIdent', id: this.ident() }))
      : { type: 'BindingIdent', id: this.ident() };
  }

  target(depth, where, name) {
    const whole = this.is() ? name() : { type: 'AssignPat', left: name(), right: this.expression(depth - 1, where) };
    return this.of([
      () => ({ type: 'ArrayPat', elems: [null, whole] }),
      () => ({ type: 'ArrayPat', elems: [{ type: 'RestPat', arg: name() }] }),
      () => ({ type: 'ObjectPat', props: [{ type: 'KeyValuePatProp', key: this.key(depth - 1, where), value: whole }] }),
      () => ({
        type: 'ObjectPat',
        props: [{
          type: 'AssignPatProp',
          key: { type: 'BindingIdent', id: this.ident() },
          value: this.is() ? null : this.expression(depth - 1, where),
        }],
      }),
    ])();
  }

  declaration(depth, where, kind = this.of(['var', 'let', 'const'])) {
    const declarator = () => ({
      type: 'VarDeclarator', name: this.binding(depth, where), init: this.expression(depth, where),
    });
    return { type: 'VarDecl', kind, decls: [declarator(), ...this.some(declarator, 1)] };
  }

  head(depth, where) {
    const simple = () => this.simple(depth - 1, where);
    if (this.is()) return this.is() ? simple() : this.target(depth, where, simple);
    const name = this.binding(depth, where);
    return { type: 'VarDecl', kind: this.of(['var', 'let', 'const']), decls: [{ type: 'VarDeclarator', name, init: null }] };
  }

  statement(depth, where) {
    const expression = () => this.expression(depth, where);
    const inner = () => this.statement(depth - 1, where);
    const jump = (type) => () => ({ type, label: null });
    const looped = () => this.of([inner, inner, jump('BreakStmt'), jump('ContinueStmt')])();
    const hanging = () => ({ type: 'IfStmt', test: expression(), cons: inner(), alt: null });
    const switchCase = () => ({ type: 'SwitchCase', test: expression(), cons: this.some(inner, 2) });
    const handler = () => ({
      type: 'CatchClause', param: this.is() ? null : this.binding(depth - 1, where), body: this.body(depth, where),
    });
    if (depth <= 0) return { type: 'ExprStmt', expr: this.leaf() };
    const makers = [
      () => ({ type: 'ExprStmt', expr: expression() }),
      () => ({ type: 'ExprStmt', expr: expression() }),
      () => ({ type: 'ExprStmt', expr: expression() }),
      () => ({ type: 'IfStmt', test: expression(), cons: inner(), alt: this.is() ? null : inner() }),
      () => ({ type: 'IfStmt', test: expression(), cons: hanging(), alt: inner() }),
      () => ({ type: 'WhileStmt', test: expression(), body: looped() }),
      () => ({ type: 'DoWhileStmt', test: expression(), body: looped() }),
      () => ({
        type: 'ForStmt',
        init: this.of([() => null, expression, () => this.declaration(depth, where)])(),
        test: this.is() ? null : expression(),
        update: this.is() ? null : expression(),
        body: looped(),
      }),
      () => ({ type: 'ForInStmt', left: this.head(depth - 1, where), right: expression(), body: looped() }),
      () => ({
        type: 'ForOfStmt',
        is_await: Boolean(where.await) && this.is(),
        left: this.head(depth - 1, where),
        right: expression(),
        body: looped(),
      }),
      () => ({ type: 'SwitchStmt', discriminant: expression(), cases: this.some(switchCase, 2) }),
      () => ({ type: 'TryStmt', block: this.body(depth, where), handler: handler(), finalizer: null }),
      () => ({ type: 'ThrowStmt', arg: expression() }),
      () => ({ type: 'BlockStmt', stmts: this.some(inner, 2) }),
      () => ({ type: 'EmptyStmt' }),
      () => ({ type: 'LabeledStmt', label: { type: 'IdentName', sym: `l${this.random(1e9)}` }, body: inner() }),
    ];
    if (where.function) makers.push(() => ({ type: 'ReturnStmt', arg: this.is() ? null : expression() }));
    return this.of(makers)();
  }

  item(depth) {
    const where = { await: true };
    return this.of([
      () => this.statement(depth, where),
      () => this.statement(depth, where),
      () => this.statement(depth, where),
      () => this.declaration(depth, where),
      () => ({ type: 'ExportDefaultExpr', expr: this.expression(depth, where) }),
      () => ({ type: 'ExportDecl', decl: this.declaration(depth, where) }),
      () => ({ type: 'FnDecl', ident: this.ident(), function: this.function(depth) }),
      () => ({ type: 'ClassDecl', ident: this.ident(), class: this.class(depth, where) }),
      () => ({ type: 'ExportDefaultDecl', decl: { type: 'FnExpr', ident: null, function: this.function(depth) } }),
    ])();
  }
}

/** The forms of so many modules, of one to three items. */
export const treesOf = (count, seed) => Array.from({ length: count }, (_, at) => {
  const maker = new Maker(seed + at);
  return { type: 'Module', body: Array.from({ length: 1 + maker.random(3) }, () => maker.item(2 + maker.random(4))) };
});
