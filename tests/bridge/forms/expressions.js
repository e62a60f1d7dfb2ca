// Operators, their precedence, calls and chains (ECMA-262, 13).
const log = (...values) => console.log(...values);
const seen = [];
const at = (name, value) => { seen.push(name); return value; };

log(1 + 2 * 3 ** 2 ** 1 % 7 - -4, (1 + 2) * 3, (-2) ** 2, 2 ** -1, 7 / 2 | 0, 1 << 3 >> 1 >>> 1, 5 & 3 ^ 6 | 8);
log(1 < 2, 2 <= 2, 3 > 2, 3 >= 4, 1 == '1', 1 != 2, 1 === 1, 1 !== 2, 'a' in { a: 1 }, [] instanceof Array);
log(!0, ~5, +'3', -'3', typeof 1, void 0, - -1, + +1, - (-1), !(!1), typeof typeof 1);
log((1, 2), true ? 1 : 2, false ? 1 : true ? 2 : 3, (true ? false : true) ? 1 : 2);
log(null ?? 'n', 0 || 'o', 1 && 'a', (null ?? 0) || 'x', (1 || 2) && 3, 1 || 2 && 3, (undefined && 1) ?? 'u');
let number = 1;
log(number++, ++number, number--, --number, number++ + ++number, - --number, -number--);
const target = { n: 1, list: [1] };
target.n += 2; target.n -= 1; target.n *= 6; target.n /= 2; target.n %= 4; target.n **= 3; target.n <<= 2;
target.n >>= 1; target.n >>>= 1; target.n |= 8; target.n &= 12; target.n ^= 5;
log(target.n);
target.a ??= 'set'; target.a ??= 'kept'; target.a &&= 'and'; target.b ||= 'or'; target['c' + 1] = target.d = 'two';
log(JSON.stringify(target));
let first, second, rest, deep, renamed, computed;
[first, , second = 2, ...rest] = [1, 9, undefined, 3, 4];
({ first: deep, ['comp' + 'uted']: computed = 5, renamed = 6, ...target.rest } = { first: 7, more: 8 });
[target.list[0], { deep = deep }] = [[1], {}];
[first, second] = [second, first];
(target.p) = 1; (target).q = 2;
log(first, second, rest, deep, computed, renamed, JSON.stringify(target));
log([1, , 2].length, [...[1, 2], ...'ab', 3], [, ].length, Math.max(...[1, 5], 3), [[], [[]]].length);
const maybe = { a: { b: () => ({ c: 1 }), list: [{ x: 1 }] }, none: null };
log(maybe?.a?.b?.().c, maybe.none?.x.y.z, maybe.none?.[at('skipped')], maybe?.['a'].list?.[0]?.x, maybe.a?.b().c);
log((maybe?.none)?.x, maybe.none?.(), delete maybe?.a?.list, (maybe.none?.x ?? 'def'), maybe.missing?.().y);
try { log((maybe.none?.x).y); } catch (error) { log(error.constructor.name); }
class Point { constructor(x = 0, y) { this.x = x; this.y = y; } static of(...all) { return new this(...all); } }
log(new Point().x, new Point, new Point(1, ...[2]), Point.of(3, 4), new (class { z = 1; })().z, new Point.of.constructor('return 5')());
const factory = { make: () => Point, Point };
log(new factory.Point(1).x, new (factory.make())(2).x, new (factory.make().bind(null, 3))().x, (new Point(4)).x);
log((() => 1)(), (function () { return this; }).call(5) == 5, (async () => {})() instanceof Promise);
const arrow = (a, b = a, { c, d: [e] = [9] } = {}, ...others) => ({ a, b, c, e, others });
log(JSON.stringify(arrow(1)), JSON.stringify(arrow(1, 2, { c: 3, d: [4] }, 5, 6)), (x => y => x + y)(1)(2), (() => ({}))());
log(((a, b) => a ? b : a)(1, 2), [1, 2].map(x => x * 2), (() => { })(), (a => [a])(1));
log(at('l', 1) + at('r', 2), seen.join());
log('in' in { in: 1 }, { if: 1, class: 2, new: 3 }.class, { 'a-b': 1, 2: 3, 1n: 4, [`k${1}`]: 5, 0x10: 6 }[16]);
const x = 1;
log(JSON.stringify({ x, y: 2, get z() { return 3; }, set z(v) { }, m() { return 4; }, async am() { }, *g() { }, async *ag() { }, ['c' + x]() { }, get ['d']() { return 5; }, ...{ e: 6 } }));
log({ __proto__: Array.prototype } instanceof Array, Object.keys({ ['__proto__']: 1 }), { async: 1, get: 2, set: 3, static: 4, of: 5, await: 6 }.of);
log({ m() { return super.toString === Object.prototype.toString; }, k: 1 }.m(), { f() { return super['valueOf']() === this; } }.f());
var yes = 1 ? (2, 3) : (4, 5);
log(yes, (log, 7), [(1, 2)], `${(1, 2)}`, ((1, 2), 3));
log(typeof undeclared, typeof (() => 1), (typeof 1).length, void (0) === undefined);
