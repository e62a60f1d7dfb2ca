// Texts that the kit's maps hash alike: whoever knows the hash, whose seed is fixed, can make as many as they like.
//
// FoldHasher takes 16 bytes at a time, as two words: it multiplies the first, joined to its state, by the second, joined
// to MULTIPLIER, to 128 bits, and joins the halves; to join is xor. So the first 16 bytes of a text of 32 lead to some
// state, and where the third word is that very state, 0 is multiplied: the hash is 0, whatever the fourth word is. One
// beginning of 24 bytes with such a third word, of letters, digits and _ alone, does for all texts that begin so; it is
// found by trying, since one state in some 70,000 is of such bytes.
const MULTIPLIER = 0x9e3779b97f4a7c15n;
const SEED = 0x243f6a8885a308d3n;
const LETTERS = 'abcdefghijklmnopqrstuvwxyzABCDEFGHIJKLMNOPQRSTUVWXYZ0123456789_';
const LENGTH = 32;

const WORD = (1n << 64n) - 1n;
const folded = (a, b) => {
  const product = a * b;
  return (product & WORD) ^ (product >> 64n);
};
const wordOf = (text) => Buffer.from(text, 'latin1').readBigUint64LE();
const textOf = (word) => {
  const bytes = Buffer.alloc(8);
  bytes.writeBigUint64LE(word);
  return bytes.toString('latin1');
};

// The state behind a write of up to 8 bytes, or of 16 at most at the end of more.
function written(state, bytes) {
  const length = bytes.length;
  if (length > 8) {
    const at = (place) => bytes.readBigUint64LE(place);
    let before = (state + BigInt(length)) & WORD, place = 0;
    for (; length - place > 16; place += 16) before = folded(at(place) ^ before, at(place + 8) ^ MULTIPLIER);
    return folded(at(length - 16 < 0 ? 0 : length - 16) ^ before, at(length - 8) ^ MULTIPLIER);
  }
  const short = length >= 4 ? BigInt(bytes.readUint32LE(0)) | (BigInt(bytes.readUint32LE(length - 4)) << 32n)
    : length > 0 ? BigInt(bytes[0] | (bytes[length >> 1] << 8) | (bytes[length - 1] << 16)) : 0n;
  return folded(state ^ short, MULTIPLIER ^ BigInt(2 * length));
}
// What is hashed of a key: the number of an enum's variant, a text, a byte.
const variant = (number) => {
  const bytes = Buffer.alloc(8);
  bytes.writeBigInt64LE(BigInt(number));
  return [bytes];
};
const text = (value) => [Buffer.from(value), Buffer.from([0xff])];
const byte = (value) => [Buffer.from([value])];
const behind = (...parts) => parts.flat().reduce(written, SEED);

// What stands before the specifier in the label of a name that is taken of an external: `Label::Of` and `Target::External`.
const EXTERNAL = [variant(0), variant(2)];
/**
 * The state of the hash before a text, by the table that it is a key of: `text` where it stands alone, `file` for the name
 * of a file, `label` for a name that is taken of the module 'external' and `owner` for the specifier of an external, both
 * in the labels of a bundle (`Label`, in the names that merging gives).
 */
export const seeds = {
  text: SEED,
  file: behind(byte(0)),
  label: behind(...EXTERNAL, text('external'), variant(0)),
  owner: behind(...EXTERNAL),
};

// The state behind the first 16 bytes of a text of 32.
const stateOf = (text, seed) => folded(wordOf(text.slice(0, 8)) ^ ((seed + BigInt(LENGTH)) & WORD), wordOf(text.slice(8, 16)) ^ MULTIPLIER);

/** What a text of 32 bytes makes of the state before it. */
export const hashOf = (text, seed = seeds.text) =>
  folded(wordOf(text.slice(16, 24)) ^ stateOf(text, seed), wordOf(text.slice(24)) ^ MULTIPLIER);

/** So many texts of 32 bytes with one hash, and as many that differ as these do with hashes of their own. */
export function colliding(count, { seed = seeds.text, start = 'n', end = '' } = {}) {
  const [first, third] = beginning(seed, start);
  const ends = Array.from({ length: count }, (_, at) => letters(at, 8 - end.length) + end);
  const other = third.split('').reverse().join('');
  return { alike: ends.map((last) => first + third + last), apart: ends.map((last) => first + other + last) };
}

// A beginning of 16 bytes that starts so, and the state that it leads to, which is of letters too.
function beginning(seed, start) {
  for (let at = 0; ; at++) {
    const first = `${start}${letters(at, 16 - start.length)}`;
    const third = textOf(stateOf(first, seed));
    if ([...third].every((letter) => LETTERS.includes(letter))) return [first, third];
  }
}

// A number as so many letters.
function letters(number, count) {
  let text = '';
  for (let left = number; text.length < count; left = Math.floor(left / LETTERS.length)) text += LETTERS[left % LETTERS.length];
  return text;
}
