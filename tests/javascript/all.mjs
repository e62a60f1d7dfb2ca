// The judges of reading and printing JavaScript, over the tables, the files in CACHE/packages of those packages that have a
// star, or of all, and so many mutants and random trees:
// `node all.mjs PROGRAM CACHE [--all] [--mutants N] [--trees N] [--seed S]`.
import fs from 'node:fs';
import path from 'node:path';
import { parseArgs } from 'node:util';
import { compared, treeFault } from './compare.mjs';
import { deep } from './deep.mjs';
import { Memory, compareFiles, filesOf } from './files.mjs';
import { goals, verdict, written } from './judges.mjs';
import { mutantsOf } from './mutants.mjs';
import { placeFault } from './places.mjs';
import { answersTo } from './program.mjs';
import { texts } from './table.mjs';
import { treesOf } from './trees.mjs';

const { values: options, positionals: [program, cache] } = parseArgs({
  allowPositionals: true,
  options: {
    all: { type: 'boolean', default: false },
    mutants: { type: 'string', default: '300' },
    trees: { type: 'string', default: '300' },
    seed: { type: 'string', default: '1' },
  },
});
const packages = fs.readFileSync(new URL('packages', import.meta.url), 'utf8').split('\n')
  .map((line) => /^([a-z0-9]\S*)( \*)?$/.exec(line)).filter((row) => row && (options.all || row[2])).map((row) => row[1]);
// What mutants are made of: the table, and the short files of these packages.
const mutated = ['node-lodash', 'node-d3-array', 'node-yjs', 'node-babel7'];
const longestMutated = 2000;
const batch = 1000;

// Written at once, also where what follows takes long.
const say = (line) => fs.writeSync(1, `javascript: ${line}\n`);
let faults = 0;
const fault = (text) => {
  faults += 1;
  say(text);
};
const ofNames = (named) => Object.entries(named).map(([name, count]) => `\n  ${count}: ${name}`).join('');
const add = (named, name) => { if (name) named[name] = (named[name] ?? 0) + 1; };

function checkTable() {
  const rows = texts.flatMap(({ text, line }) => goals.map((goal) => ({ text, goal, line })));
  const answers = answersTo(program, rows);
  const named = {};
  const count = { taken: 0, refused: 0 };
  rows.forEach((row, at) => {
    const said = verdict(row.text, row.goal, true);
    const { fault: found, named: name } = compared(row, answers[at], said);
    const { refusal } = answers[at];
    const misplaced = !found && refusal && placeFault(row.text, refusal, said.babel.refusal, said.node.refusal);
    if (found || misplaced) fault(`table.txt:${row.line} (${row.goal}): ${found ?? misplaced}`);
    add(named, name);
    count[refusal ? 'refused' : 'taken'] += 1;
  });
  say(`${texts.length} texts with both goals: ${count.taken} taken, ${count.refused} refused${ofNames(named)}`);
}

function checkDeep() {
  const rows = Object.entries(deep).flatMap(([name, text]) => goals.map((goal) => ({ name, text, goal })));
  const answers = answersTo(program, rows);
  rows.forEach((row, at) => {
    const { fault: found } = compared(row, answers[at]);
    if (found) fault(`${row.name} (${row.goal}): ${found}`);
  });
  say(`${rows.length / goals.length} deep texts with both goals`);
}

function checkFiles() {
  const folder = path.join(cache, 'packages');
  for (const name of packages) if (filesOf(folder, [name]).next().done) fault(`${name} has no JavaScript`);
  const counts = compareFiles(program, new Memory(cache), filesOf(folder, packages), fault);
  say(`${counts.files} files of ${packages.length} packages: ${counts.alike} alike, ${counts.refused} refused, `
    + `${counts.faults} differ${ofNames(counts.named)}`);
}

function checkMutants() {
  const whole = [...texts, ...filesOf(path.join(cache, 'packages'), mutated)]
    .filter(({ text }) => text.length <= longestMutated);
  const named = {};
  let taken = 0;
  for (let done = 0; done < options.mutants; done += batch) {
    const mutants = mutantsOf(whole, Math.min(batch, options.mutants - done), Number(options.seed) + done);
    const answers = answersTo(program, mutants);
    mutants.forEach((mutant, at) => {
      const { fault: found, named: name } = compared(mutant, answers[at]);
      if (found) fault(`mutant (${mutant.goal}) ${JSON.stringify(mutant.text)}: ${found}`);
      add(named, name);
      taken += answers[at].form ? 1 : 0;
    });
  }
  say(`${options.mutants} mutants: ${taken} taken${ofNames(named)}`);
}

function checkTrees() {
  for (let done = 0; done < options.trees; done += batch) {
    const trees = treesOf(Math.min(batch, options.trees - done), Number(options.seed) + done)
      .map((tree) => ({ text: written(tree), goal: 'tree' }));
    const answers = answersTo(program, trees);
    trees.forEach(({ text }, at) => {
      const found = treeFault(text, answers[at]);
      if (found) fault(`tree: ${found}`);
    });
  }
  say(`${options.trees} random trees`);
}

checkTable();
checkDeep();
checkFiles();
checkMutants();
checkTrees();
say(`${faults === 0 ? 'passed' : `${faults} faults`}`);
process.exitCode = faults === 0 ? 0 : 1;
