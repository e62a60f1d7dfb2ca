// Classes with each kind of member (ECMA-262, 15.7).
const log = (...values) => console.log(...values);
const key = 'computed';

class Base {
  static #total = 0;
  static shared = 'shared';
  static [key + 'Static'] = 1;
  #hidden = 1;
  plain;
  value = this.#hidden + 1;
  'quoted name' = 3;
  42 = 'number';
  [key] = 4;
  static { this.#total = 10; const local = 5; this.block = local; }
  static { }
  constructor(given = 0, { other } = {}) { this.given = given; this.other = other; }
  method() { return this.#private(); }
  #private() { return `private ${this.#hidden}`; }
  static #privateStatic() { return Base.#total; }
  static total() { return Base.#privateStatic(); }
  get hidden() { return this.#hidden; }
  set hidden(value) { this.#hidden = value; }
  get #inner() { return this.#hidden * 2; }
  set #inner(value) { this.#hidden = value / 2; }
  double() { this.#inner = this.#inner + 2; this.#hidden += 0; this.#hidden++; return this.#inner; }
  static has(object) { return #hidden in object && !(#private in {}); }
  optional(object) { return object?.#hidden ?? 'none'; }
  async later() { return await this.#hidden; }
  *items() { yield this.#hidden; yield* [1, 2]; }
  async *asyncItems() { yield this.#hidden; }
  static async loaded() { return 'loaded'; }
  static *range() { yield 1; }
  get [`get_${key}`]() { return 'got'; }
  static get latest() { return 'latest'; }
  static set latest(value) { log('set', value); }
  'method name'() { return 1; }
  7() { return 'seven'; }
  static() { return 'static'; }
  get() { return 'get'; }
  set() { return 'set'; }
  async() { return 'async'; }
  static static() { return 'static static'; }
  static async = 'field';
  ;
}

class Derived extends Base {
  field = super.method();
  constructor(...all) { super(...all); this.target = new.target === Derived; }
  method() { return `derived ${super.method()} ${super['method name']()}`; }
  static total() { return super.total() + 1; }
  get hidden() { return super.hidden + 100; }
  arrow = () => super.method();
}

const base = new Base(1, { other: 2 });
log(JSON.stringify(base), base.method(), Base.total(), base.hidden, (base.hidden = 5, base.hidden), base.double());
log(Base.has(base), Base.has({}), base.optional(null), base.optional(base), Base.block, Base.shared, Base.computedStatic);
log(await base.later(), [...base.items()], [...Base.range()], await Base.loaded(), base.get_computed, Base.latest);
Base.latest = 'now';
for await (const one of base.asyncItems()) log(one);
log(base['method name'](), base[7](), base.static(), base.get(), base.set(), base.async(), Base.static(), Base.async);
const derived = new Derived(8);
log(derived.field, derived.method(), Derived.total(), derived.target, derived.given, derived.arrow(), derived.hidden);
const Named = class Inner { static self() { return Inner === Named; } };
const Anonymous = class { };
const Expression = class extends (0, Base) { };
log(Named.self(), new Anonymous() instanceof Anonymous, Expression.total(), new (class extends Derived { }) instanceof Base);
class Null extends null { static alive = true; }
log(Null.alive, class { }.prototype !== undefined, (class { static x = 1; }).x);
