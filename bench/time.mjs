// Times a program that `bridge/build` made on documents of shapes.mjs, each at N, 2 N and 4 N.
//
//   node bench/time.mjs PROGRAM [--seconds] [SHAPE[=N] ..]
//
// It counts instructions, in millions; with --seconds it takes those of the processor in the program and in the system for
// it, the least of three runs, and the memory at the peak. Growth is how 4 N stands to N, where 4 is linear.
// It needs Debian's package `valgrind` to count, and `time` for seconds.
import { spawnSync } from 'node:child_process';
import fs from 'node:fs';
import os from 'node:os';
import path from 'node:path';
import process from 'node:process';
import { documentOf, shapes } from './shapes.mjs';

const words = process.argv.slice(2);
const counts = !words.includes('--seconds');
const [program, ...asked] = words.filter((word) => !word.startsWith('--'));
if (!program) {
  console.error('usage: node bench/time.mjs PROGRAM [--seconds] [SHAPE[=N] ..]');
  process.exit(2);
}
const wanted = asked.length > 0 ? asked.map((word) => word.split('=')) : Object.keys(shapes).map((shape) => [shape]);
const unknown = wanted.find(([shape]) => !Object.hasOwn(shapes, shape));
if (unknown) {
  console.error(`${unknown[0]}: the shapes are ${Object.keys(shapes).join(', ')}`);
  process.exit(2);
}

const folder = fs.mkdtempSync(path.join(os.tmpdir(), 'shapes-'));
process.on('exit', () => fs.rmSync(folder, { recursive: true }));
const file = path.join(folder, 'document.json');

// Runs a command on the document; gives its status and what it wrote of errors.
function run(command, words) {
  const input = fs.openSync(file, 'r');
  const { status, stderr, error } = spawnSync(command, words, { stdio: [input, 'ignore', 'pipe'], timeout: 600_000, encoding: 'utf8' });
  fs.closeSync(input);
  if (error?.code === 'ENOENT') throw new Error(`${command} is not here`);
  return { status, lines: stderr.trim().split('\n') };
}

function timed() {
  const { status, lines } = run('/usr/bin/time', ['-f', '%U %S %M', program]);
  const [user, system, peak] = lines.at(-1).split(' ').map(Number);
  return { cost: user + system, memory: peak / 1024, status: status === 0 ? '' : lines[0] };
}

const best = (runs) => runs.reduce((a, b) => (b.cost < a.cost ? b : a));

function counted() {
  const { status, lines } = run('valgrind', ['--tool=callgrind', `--callgrind-out-file=${path.join(folder, 'callgrind')}`, program]);
  const found = lines.map((line) => /Collected : (\d+)/.exec(line)).find(Boolean);
  return { cost: found ? Number(found[1]) / 1e6 : NaN, memory: NaN, status: status === 0 ? '' : `status ${status}` };
}

const shown = (cost) => (counts ? cost.toFixed(0) : cost.toFixed(2));
const columns = ['Shape', 'N, 2 N, 4 N', 'MB of document', ...(counts ? ['Million instructions'] : ['Seconds', 'MB at the peak']), 'Growth'];
const line = (cells) => console.log(`| ${cells.join(' | ')} |`);
line(columns);
console.log(`|${'---|'.repeat(columns.length)}`);
for (const [shape, from] of wanted) {
  const sizes = [1, 2, 4].map((times) => times * Number(from ?? shapes[shape][0]));
  const results = sizes.map((size) => {
    fs.writeFileSync(file, documentOf(shape, size));
    const result = counts ? counted() : best([timed(), timed(), timed()]);
    return { ...result, size: fs.statSync(file).size / 1e6 };
  });
  const row = (show) => results.map(show).join(', ');
  const status = results.map((it) => it.status).find(Boolean);
  line([`${shape}${status ? ` (${status})` : ''}`, sizes.join(', '), row((it) => it.size.toFixed(1)), row((it) => shown(it.cost)),
    ...(counts ? [] : [row((it) => it.memory.toFixed(0))]), (results[2].cost / results[0].cost).toFixed(1)]);
}
