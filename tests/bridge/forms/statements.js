// Statements and declarations (ECMA-262, 14).
const log = (...values) => console.log(...values);

{ let block = 1; { const block = 2; log(block); } log(block); }
var a = 1, b, c = 3; let d, e = 5; const f = 6;
log(a, b, c, d, e, f);
if (a) log('then'); else log('else');
if (!a) { log('then'); } else if (b) log('second'); else { log('last'); }
if (a) if (b) log('inner'); else log('dangling');
if (a) { if (b) log('inner'); } else log('outer');
for (let i = 0, n = 2; i < n; i++) log('for', i);
for (var i = 0; ;) { if (i++ > 1) break; }
for (; i < 5; i++);
for (const key in { x: 1, y: 2 }) log(key);
for (var old in [7]) log(old);
for (const [name, value = 9] of Object.entries({ p: undefined, q: 2 })) log(name, value);
let left; for (left of [1, 2]); log(left);
const holder = {}; for (holder.key in { z: 1 }); for ([holder.first, ...holder.rest] of [[1, 2, 3]]); log(JSON.stringify(holder));
for (let async of [1]) log(async);
for (let x = ('k' in { k: 1 }); x; x = false) log(x);
let count = 3;
while (count) { if (count-- === 2) continue; log('while', count); }
do log('do', count++); while (count < 2);
do { count++; } while (count < 5)
outer: for (const one of [1, 2, 3]) { inner: for (const two of [1, 2]) { if (two === 2) continue outer; if (one === 3) break outer; log(one, two); continue inner; } }
labelled: { log('in'); if (a) break labelled; log('not'); }
const kind = (value) => {
  switch (value) {
    case 1: { return 'one'; }
    case 2:
    case 'two': return 'two';
    default: return 'other';
    case 4: let inside = 'four'; return inside;
  }
};
log(kind(1), kind(2), kind('two'), kind(3), kind(4));
switch (5) { }
switch (6) { default: }
try { throw new TypeError('thrown'); } catch ({ message, name = 1 }) { log(message, name); } finally { log('finally'); }
try { throw 1; } catch { log('no binding'); }
try { log('tried'); } finally { log('after'); }
const nested = () => { try { return 'try'; } finally { log('on the way'); } };
log(nested());
log(hoisted(), typeof later);
function hoisted() { return 'hoisted'; }
var later = 1;
{ function local() { return 'local'; } log(local()); }
function defaults(p, q = p, { r = q, ...others } = {}, [s, , t] = [1, 2, 3], ...rest) { return JSON.stringify([p, q, r, others, s, t, rest]); }
log(defaults(1), defaults(1, 2, { r: 3, u: 4 }, [5, 6, 7], 8, 9));
function* numbers() { const got = yield 1; log('got', got); yield* [2, 3]; yield; return 4; }
const generator = numbers();
log(JSON.stringify([generator.next(), generator.next('value'), generator.next(), generator.next(), generator.next()]));
async function wait(value) { const got = await value; return got + (await 1); }
async function* ticks() { yield 1; yield await 2; }
log(await wait(2));
for await (const tick of ticks()) log('tick', tick);
for await (const one of [Promise.resolve('p'), 'q']) log(one);
function Target() { return new.target === Target; }
log(new Target() instanceof Target, Target());
function args() { return arguments.length; }
log(args(1, 2), typeof import.meta.url, (await import('node:path')).basename('/a/b'));
(function () { 'use strict'; log(this === undefined); })();
(() => { "not a directive" + 1; log('expression'); })();
("in parentheses");
let let_ = 1; let_
++count
log(let_, count)
if (a) ; else log('empty');
