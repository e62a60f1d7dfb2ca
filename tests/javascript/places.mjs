// Whether an error is told at the token that Babel or Node means.
import { createRequire } from 'node:module';
import { mayBeTold } from './elsewhere.mjs';

const jsTokens = createRequire(import.meta.url)('js-tokens');
const gaps = new Set(['WhiteSpace', 'LineTerminatorSequence', 'SingleLineComment', 'MultiLineComment']);

// Where the tokens of a text end that may be none of JavaScript. What stands right behind a number or an escape is one with it.
function endsOf(text) {
  const ends = [];
  let at = 0;
  let isOpen = false;
  for (const { type, value } of jsTokens(text)) {
    at += value.length;
    const isGap = gaps.has(type);
    const isWord = /^[\w$\\.#]|^[^\x00-\x7f]/.test(value) && !isGap;
    if (isOpen && isWord) ends.pop();
    if (!isGap) ends.push(at);
    isOpen = !isGap && (type === 'NumericLiteral' || type === 'Invalid' || (isOpen && isWord));
  }
  return ends;
}

// The offset of a line and a column of a text.
function offsetOf(text, { line, column }) {
  const ends = /\r\n|[\n\r\u2028\u2029]/g;
  for (let before = 1; before < line; before += 1) ends.exec(text);
  return ends.lastIndex + column - 1;
}

/**
 * What is wrong with the place of a refusal, beside those of Babel and Node, as far as they refuse the text: null where it lies
 * in the token of one of them, or in what Node marks, or where such an error is known to be told elsewhere.
 */
export function placeFault(text, ours, babel, node) {
  const ends = endsOf(text);
  const tokenOf = (place) => {
    const offset = offsetOf(text, place);
    const token = ends.findIndex((end) => end > offset);
    return token < 0 ? ends.length : token;
  };
  const judges = [babel, node].filter((refusal) => refusal?.line);
  const token = tokenOf(ours);
  const offset = offsetOf(text, ours);
  const isMarked = node?.line && offset >= offsetOf(text, node) && offset < offsetOf(text, node) + node.length;
  const isRight = judges.length === 0 || isMarked || judges.some((judge) => tokenOf(judge) === token
    || mayBeTold(ours.message, token, judge.message, tokenOf(judge)));
  const shown = ({ line, column, message }) => `${line}:${column} (${message})`;
  return isRight ? null : `told at ${shown(ours)}, ${judges.map(shown).join(', ')}`;
}
