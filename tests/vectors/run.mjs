// node run.mjs PROGRAM [SET ..]   runs PROGRAM, a built bundle_json, on the documents of SET.jsonl.gz beside this file, or of
// all sets, and compares its output, its errors and its status with what is wanted, byte for byte. Where hygiene is off,
// contexts above 1 may be others: in each bundle by a one-to-one map, for each symbol its own. The answers were made by an
// independent implementation of the linker in JavaScript, which was itself compared with Node's own loader.
//
// A line of a set: { name, input or input_base64, out, err, status }; `zcat SET.jsonl.gz` shows them.
import { spawnSync } from 'node:child_process';
import fs from 'node:fs';
import path from 'node:path';
import { fileURLToPath } from 'node:url';
import zlib from 'node:zlib';

const here = path.dirname(fileURLToPath(import.meta.url));
const END = '.jsonl.gz';
const WIDTH = 120;

const [program, ...asked] = process.argv.slice(2);
if (!program) {
  console.error('usage: node run.mjs PROGRAM [SET ..]');
  process.exit(2);
}
const sets = asked.length > 0 ? asked : fs.readdirSync(here).filter((it) => it.endsWith(END)).map((it) => it.slice(0, -END.length));
const documentsOf = (set) => zlib.gunzipSync(fs.readFileSync(path.join(here, `${set}${END}`))).toString()
  .split('\n').filter(Boolean).map((line) => JSON.parse(line));

// Whether two trees are alike but for contexts above 1, which a one-to-one map of names with contexts has to lead over.
function areAlike(wanted, given) {
  const there = new Map(), back = new Map();
  const meet = (map, key, value) => (map.get(key) ?? map.set(key, value).get(key)) === value;
  const areIdents = (a, b) => {
    if (a.sym !== b.sym) return false;
    const [from, to] = [a.ctxt ?? 0, b.ctxt ?? 0];
    if (from <= 1 || to <= 1) return from === to;
    return meet(there, `${a.sym}#${from}`, to) && meet(back, `${a.sym}#${to}`, from);
  };
  const are = (a, b) => {
    if (a === null || b === null || typeof a !== 'object' || typeof b !== 'object') return a === b;
    if (a.type === 'Ident' && b.type === 'Ident') return areIdents(a, b);
    const keys = Object.keys(a);
    return Array.isArray(a) === Array.isArray(b) && keys.length === Object.keys(b).length
      && keys.every((key) => Object.hasOwn(b, key) && are(a[key], b[key]));
  };
  return are(wanted, given);
}

const isWithoutHygiene = (input) => /"disable_hygiene":\s*true/.test(input ?? '');

function isRight(document, { status, out, err }) {
  if (status !== document.status || err !== document.err) return false;
  if (out === document.out) return true;
  if (status !== 0 || !isWithoutHygiene(document.input)) return false;
  try {
    const [wanted, given] = [document.out, out].map((text) => JSON.parse(text));
    return wanted.length === given.length && wanted.every((bundle, at) => areAlike(bundle, given[at]));
  } catch {
    return false;
  }
}

function answered({ input, input_base64: bytes }) {
  const document = bytes === undefined ? Buffer.from(input) : Buffer.from(bytes, 'base64');
  const { status, stdout, stderr, error } = spawnSync(program, [], { input: document, maxBuffer: Infinity });
  return { status: status ?? error?.code, out: `${stdout ?? ''}`, err: `${stderr ?? ''}` };
}

// The text round the character at which two differ.
const cut = (text, at) => JSON.stringify(text.slice(Math.max(0, at - WIDTH / 2), at + WIDTH));
function show(wanted, given) {
  for (const part of ['status', 'err', 'out']) {
    const [one, other] = [`${wanted[part]}`, `${given[part]}`];
    const at = [...one].findIndex((letter, place) => letter !== other[place]);
    if (one !== other) console.log(`  ${part} wanted: ${cut(one, Math.max(at, 0))}\n  ${part} given:  ${cut(other, Math.max(at, 0))}`);
  }
}

const counts = { passed: 0, failed: 0 };
for (const set of sets) {
  for (const document of documentsOf(set)) {
    const given = answered(document);
    const isPassed = isRight(document, given);
    counts[isPassed ? 'passed' : 'failed'] += 1;
    if (isPassed) continue;
    console.log(`FAILED ${set}: ${document.name}`);
    show(document, given);
  }
}
const counted = path.join(here, '..', 'counted');
const isWhole = asked.length > 0
  || spawnSync(counted, ['vectors', `${counts.passed + counts.failed}`], { stdio: 'inherit' }).status === 0;
console.log(`vectors: ${counts.passed} passed, ${counts.failed} failed`);
process.exit(counts.failed === 0 && isWhole ? 0 : 1);
