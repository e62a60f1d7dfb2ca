// What our reader and printer make of many texts: a run of the program in program/ over each batch of them.
import fs from 'node:fs';
import os from 'node:os';
import path from 'node:path';
import { spawnSync } from 'node:child_process';

const scratch = fs.mkdtempSync(path.join(os.tmpdir(), 'javascript-'));
process.on('exit', () => fs.rmSync(scratch, { recursive: true }));
const answersFile = path.join(scratch, 'answers');

/** The texts as the program reads them, each `{ text, goal }`; those with the goal `tree` are forms. */
export const frames = (texts) => Buffer.concat(texts.flatMap(({ text, goal }) => {
  const bytes = Buffer.from(text);
  return [Buffer.from(`${goal} ${bytes.length}\n`), bytes];
}));

/**
 * What the program says to each of these texts: `form`, `text`, what it prints of it, and `bare`, what it prints of it without
 * its parentheses; or `refusal` with its message and its place, or `crash`. To a form it says `text` alone.
 */
export function answersTo(program, texts) {
  const answers = [];
  // One run tells all of them, but where it ends before.
  while (answers.length < texts.length) {
    const { ended, told } = run(program, texts.slice(answers.length));
    answers.push(...told);
    if (answers.length < texts.length) answers.push({ crash: ended });
  }
  return answers;
}

function run(program, texts) {
  const out = fs.openSync(answersFile, 'w');
  // It has the stack that programs have, whatever Babel is given.
  const ran = spawnSync('sh', ['-c', 'ulimit -s 8192; exec "$0"', program], {
    input: frames(texts), stdio: ['pipe', out, 'inherit'],
  });
  fs.closeSync(out);
  if (ran.error && ran.error.code !== 'EPIPE') throw ran.error;
  return { ended: ran.signal ?? `status ${ran.status}`, told: parts(fs.readFileSync(answersFile)) };
}

// The answers in what was written, those that are whole.
function parts(bytes) {
  const told = [];
  let at = 0;
  const next = () => {
    const line = bytes.indexOf(10, at);
    const [, name, length] = /^(\w+) (\d+)$/.exec(bytes.subarray(at, line).toString()) ?? [];
    const end = line + 1 + Number(length);
    if (!name || end > bytes.length) return null;
    at = end;
    return { name, text: bytes.subarray(line + 1, end).toString() };
  };
  for (let part = next(); part; part = next()) {
    if (part.name === 'error') {
      const [, line, column, message] = /^(\d+):(\d+): (.*)$/s.exec(part.text);
      told.push({ refusal: { line: Number(line), column: Number(column), message } });
    } else if (part.name === 'text') {
      told.push({ text: part.text });
    } else {
      const [text, bare] = [next(), next()];
      if (!bare) break;
      told.push({ form: part.text, text: text.text, bare: bare.text });
    }
  }
  return told;
}
