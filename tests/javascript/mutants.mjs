// Texts made of real ones by small changes, of characters and of tokens: what is made of a seed is always the same.
import { createRequire } from 'node:module';
import { goals } from './judges.mjs';

const jsTokens = createRequire(import.meta.url)('js-tokens');

const words = `await async as arguments break case catch class const constructor continue debugger default delete do else enum
  eval export extends false finally for from function get if implements import in instanceof interface let meta new null of
  package private protected prototype public return set static super switch target this throw true try typeof undefined use
  var void while with yield __proto__ a b`.split(/\s+/);
const punctuators = `{ } ( ) [ ] . ... ; , < > <= >= == != === !== + - * / % ** ++ -- << >> >>> & | ^ ! ~ && || ?? ? ?. : = += -= *=
  /= %= **= <<= >>= >>>= &= |= ^= &&= ||= ??= => @ # \\ \` ' " \${ // /* */ <!-- -->`.split(/\s+/);
const others = ['#a', 'a:', '(a)', '[a]', '{a}', '{a=1}', '...a', 'a=1', '()=>a', 'async()=>a', '`a`', '`${a}`', '/a/',
  '/[/', '/a/g', '1', '0', '1n', '01', '0x1', '1e', '1_0', '.5', '"a"', "'\\1'", '"use strict"', '\\u0061', '\\u{62}',
  'import.meta', 'new.target', 'import(a)', 'super.a', 'super()', 'yield a', 'await a', 'a?.b', 'let a', 'for await',
  'get a', 'static{}'];
const characters = [...'abz_$059 \n\r\t.,;:?!=+-*/%<>&|^~()[]{}\'"`\\#@', '\u2028', '\ufeff', '\u00a0', '\0', 'é',
  '\u{20bb7}', '\u200c'];

/** Numbers below what is asked for, of a seed (mulberry32). */
export const randomOf = (seed) => {
  let state = seed >>> 0;
  return (below) => {
    state = (state + 0x6d2b79f5) >>> 0;
    let mixed = Math.imul(state ^ (state >>> 15), state | 1);
    mixed ^= mixed + Math.imul(mixed ^ (mixed >>> 7), mixed | 61);
    return Math.floor((((mixed ^ (mixed >>> 14)) >>> 0) / 2 ** 32) * below);
  };
};

const spliced = (parts, at, count, ...more) => [...parts.slice(0, at), ...more, ...parts.slice(at + count)];
const swapped = (parts, at) => spliced(parts, at, 2, ...parts.slice(at, at + 2).reverse());

// Each changes the part at a place, of characters or of tokens; `any` gives a part that stands elsewhere or is new, and `some`
// neighbours of another text.
const changes = [
  (parts, at) => spliced(parts, at, 1),
  (parts, at, { any }) => spliced(parts, at, 0, any()),
  (parts, at, { any }) => spliced(parts, at, 1, any()),
  (parts, at) => spliced(parts, at, 0, parts[at]),
  (parts, at) => swapped(parts, at),
  (parts, at, { random }) => spliced(parts, at, random(8)),
  (parts, at, { some }) => spliced(parts, at, 0, ...some()),
  (parts, at, { some, random }) => spliced(parts, at, random(8), ...some()),
];

const tokensOf = (text) => [...jsTokens(text)].map(({ value }) => value);

function changed(text, texts, random) {
  const isTokens = random(4) > 0;
  const partsOf = isTokens ? tokensOf : (whole) => [...whole];
  const parts = partsOf(text);
  const pools = isTokens ? [words, punctuators, others, parts, ['\n']] : [characters, parts];
  const any = () => {
    const pool = pools[random(pools.length)];
    const part = pool[random(pool.length)] ?? '';
    return isTokens && pool !== parts ? ` ${part} ` : part;
  };
  const some = () => {
    const from = partsOf(texts[random(texts.length)].text.slice(0, 2000));
    const at = random(from.length);
    return from.slice(at, at + 1 + random(12));
  };
  return changes[random(changes.length)](parts, random(parts.length), { any, some, random }).join('');
}

/** So many mutants of these texts, `{ text, goal, of }`: each has one to three changes. */
export function mutantsOf(texts, count, seed) {
  const random = randomOf(seed);
  return Array.from({ length: count }, () => {
    const of = texts[random(texts.length)];
    let { text } = of;
    for (let left = random(3); left >= 0; left -= 1) text = changed(text, texts, random);
    return { text: text.toWellFormed?.() ?? text, goal: goals[random(goals.length)], of: of.name };
  });
}
