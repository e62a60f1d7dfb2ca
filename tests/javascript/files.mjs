// The files of Debian's packages: the form that we make of each beside Babel's, and what we print of it read again by Babel and
// taken by Node. Each file is read as a module, and where Babel takes it as none as a CommonJS module too.
import crypto from 'node:crypto';
import fs from 'node:fs';
import path from 'node:path';
import { createRequire } from 'node:module';
import { bareForm } from './bare.mjs';
import { compared } from './compare.mjs';
import { babelOf, nodeOf } from './judges.mjs';
import { answersTo } from './program.mjs';

const bytesOfBatch = 2_000_000;
const sum = (text) => crypto.createHash('sha256').update(text).digest('base64url');

/** The files of these packages in a folder, those with equal texts once: `{ name, text }`, in the order of their names. */
export function* filesOf(folder, packages) {
  const seen = new Set();
  for (const name of packages) {
    const files = fs.readdirSync(path.join(folder, name), { recursive: true })
      .map((file) => path.join(name, file)).sort();
    for (const file of files) {
      const where = path.join(folder, file);
      if (!fs.statSync(where).isFile()) continue;
      const text = fs.readFileSync(where, 'utf8');
      const hash = sum(text);
      if (seen.has(hash)) continue;
      seen.add(hash);
      yield { name: file, text };
    }
  }
}

/** What Babel makes of texts, by the sums of forms: kept in a file, for this Babel and this way from its tree to a form. */
export class Memory {
  #file;
  #known = new Map();

  constructor(folder) {
    const require = createRequire(import.meta.url);
    const { version } = require('@babel/parser/package.json');
    const way = sum(['../../bridge/read.mjs', 'bare.mjs']
      .map((file) => fs.readFileSync(new URL(file, import.meta.url))).join(''));
    this.#file = path.join(folder, `babel-${version}-${way.slice(0, 8)}`);
    if (!fs.existsSync(this.#file)) return;
    for (const line of fs.readFileSync(this.#file, 'utf8').split('\n')) {
      const [key, form, bare] = line.split(' ');
      this.#known.set(key, { form, bare });
    }
  }

  /** The sums of the form of a text and of that without its parentheses, both undefined where Babel refuses it. */
  sumsOf(text, goal) {
    const key = `${goal[0]}${sum(text)}`;
    if (!this.#known.has(key)) {
      const { form } = babelOf(text, goal);
      const sums = form ? { form: sum(form), bare: sum(bareForm(form)) } : {};
      this.#known.set(key, sums);
      fs.appendFileSync(this.#file, `${[key, sums.form, sums.bare].join(' ').trimEnd()}\n`);
    }
    return this.#known.get(key);
  }
}

/**
 * Compares what we make of all of these files, and tells each fault. Gives how many there are (`files`), how many we make the
 * form of that Babel makes (`alike`), how many both refuse with both goals (`refused`), of how many Babel and Node differ by a
 * difference of a name (`named`), and the faults (`faults`).
 */
export function compareFiles(program, memory, files, tell) {
  const counts = { files: 0, alike: 0, refused: 0, named: {}, faults: 0 };
  for (const batch of batches(files)) {
    const modules = compareBatch(program, memory, batch, 'module', counts, tell);
    const scripts = compareBatch(program, memory, modules.filter(({ taken }) => !taken), 'commonjs', counts, tell);
    counts.files += batch.length;
    counts.refused += scripts.filter(({ taken }) => !taken).length;
  }
  return counts;
}

function* batches(files) {
  let batch = [];
  let bytes = 0;
  for (const file of files) {
    batch.push(file);
    bytes += file.text.length;
    if (bytes < bytesOfBatch) continue;
    yield batch;
    batch = [];
    bytes = 0;
  }
  if (batch.length > 0) yield batch;
}

// The files of a batch, each with whether Babel takes it with this goal.
function compareBatch(program, memory, batch, goal, counts, tell) {
  if (batch.length === 0) return [];
  const answers = answersTo(program, batch.map(({ text }) => ({ text, goal })));
  return batch.map(({ name, text }, at) => {
    const sums = memory.sumsOf(text, goal);
    const { fault, named } = comparedFile({ text, goal }, sums, answers[at], memory);
    if (named) counts.named[named] = (counts.named[named] ?? 0) + 1;
    if (fault) tell(`${name} (${goal}): ${fault}`);
    if (fault) counts.faults += 1;
    else if (answers[at].form && sums.form) counts.alike += 1;
    return { name, text, taken: sums.form !== undefined };
  });
}

// What `compared` tells, by the sums of forms where they are alike.
function comparedFile(file, { form, bare }, answer, memory) {
  if (answer.refusal && form === undefined) return { fault: null };
  const isAlike = answer.form && sum(answer.form) === form
    && memory.sumsOf(answer.text, file.goal).form === form && memory.sumsOf(answer.bare, file.goal).bare === bare
    && !nodeOf(answer.text, file.goal).refusal && !nodeOf(answer.bare, file.goal).refusal;
  return isAlike ? { fault: null } : compared(file, answer);
}
