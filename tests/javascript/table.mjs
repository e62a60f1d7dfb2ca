// The texts of table.txt.
import fs from 'node:fs';

const marks = /[⏎␍]|«([0-9A-F]+)»/g;
const meant = (mark, code) => (code ? String.fromCodePoint(parseInt(code, 16)) : { '⏎': '\n', '␍': '\r' }[mark]);

/** The texts, each with the line that it stands in. */
export const texts = fs.readFileSync(new URL('table.txt', import.meta.url), 'utf8').split('\n')
  .map((shown, at) => ({ shown, line: at + 1, text: shown.replace(marks, meant) }));
texts.splice(0, texts.findIndex(({ shown }) => shown.startsWith('## ')));
for (let at = texts.length - 1; at >= 0; at--) if (/^($|## )/.test(texts[at].shown)) texts.splice(at, 1);
