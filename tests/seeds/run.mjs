// node run.mjs PROGRAM [COUNT] [SEED] [KIND..]   runs random graphs of modules by Node before and after PROGRAM has linked
// them, and compares what they log, how they end and what they export: COUNT graphs of each kind from SEED on, of all kinds
// but the last where none is named. JavaScript becomes documents, and bundles JavaScript, by ../../bridge.
//
//   bound      as graph(seed) makes them, bundled by needs
//   free       as graph(seed, true) does, bundled by needs. Where one that has a cycle differs, and with its bundle's
//              statements in the order of ECMA-262 does not, the bundle's order alone is another, and it counts as such
//   standard   as graph(seed, true, true) does, bundled in the standard's order. There a bundle may differ only where an
//              object of a namespace is taken as a value in a cycle
//   cycles     those of the third kind that have a cycle
//
// The last lines say how many there are of each. Where it is the 300 graphs from the seed 1 on, that has to be as ../counts
// has it.
import { spawnSync } from 'node:child_process';
import fs from 'node:fs';
import os from 'node:os';
import path from 'node:path';
import { fileURLToPath, pathToFileURL } from 'node:url';
import { moduleOf } from '../../bridge/read.mjs';
import { textOf } from '../../bridge/write.mjs';
import { graph } from './graphs.mjs';
import { inOrder } from './order.mjs';

const [program, count = 300, first = 1, ...asked] = process.argv.slice(2);
const KINDS = {
  bound: {}, free: { isFree: true }, standard: { isFree: true, isStandard: true }, cycles: { isFree: true, isStandard: true, isOfCycles: true },
};
const kinds = asked.length ? asked : ['bound', 'free', 'standard'];
const folder = fs.mkdtempSync(path.join(os.tmpdir(), 'seeds-'));
fs.writeFileSync(path.join(folder, 'package.json'), '{"type": "module"}');

// Functions and classes are shown as such: how they are named is not promised.
const shown = (x) => (typeof x === 'function' ? (/^class/.test(Function.prototype.toString.call(x)) ? 'a class' : 'a function')
  : Array.isArray(x) ? `[${x.map(shown).join()}]`
  : x && typeof x === 'object' ? `{${Object.keys(x).sort().map((key) => `${key}: ${shown(x[key])}`).join()}}` : `${typeof x} ${String(x)}`);
let logged;
globalThis.log = (...xs) => { logged.push(xs.map(shown).join(' ')); };

// What a file does: what it logs, and what it exports or which error it ends with.
async function done(file, exportsOf) {
  logged = [];
  try {
    const given = exportsOf(await import(pathToFileURL(file)));
    return [...logged, shown(given)].join('\n');
  } catch (error) {
    if (error instanceof SyntaxError) return `no JavaScript: ${error.message}`;
    return [...logged, error.name].join('\n');
  }
}

const named = (file) => (file.endsWith('.js') ? file : `${file}.js`);
function linked({ files, entries, config }) {
  const document = { config, entries: entries.map((file, i) => [`${i}`, file]), files: Object.fromEntries(Object.entries(files).map(([file, text]) => [named(file), moduleOf(text)])) };
  const ran = spawnSync(program, ['program'], { input: JSON.stringify(document), encoding: 'utf8', maxBuffer: 1 << 26 });
  if (ran.status !== 0) throw new Error(`${ran.stderr.trim() || ran.error || ran.signal} (status ${ran.status})`);
  return JSON.parse(ran.stdout).map((bundle) => bundle.module);
}

// What a bundle does, as it stands in a file of this name.
function bundleDone(tree, name, isCall) {
  const file = path.join(folder, `${name}.mjs`), text = textOf(tree);
  fs.writeFileSync(file, isCall ? `export default ${text}` : text);
  return done(file, (given) => ({ ...(isCall ? given.default : given) }));
}

const alike = 'alike', ordered = 'in another order', held = 'by an object of a namespace', differing = 'otherwise';

// What the bundle of an entry does beside its modules.
async function compared(made, entry, tree, name) {
  const before = path.join(folder, name);
  fs.mkdirSync(before);
  for (const [file, text] of Object.entries(made.files)) fs.writeFileSync(path.join(before, file), text);
  const wanted = await done(path.join(before, entry), (given) => ({ ...given }));
  const isError = /Error$/.test(wanted);
  if (tree instanceof Error) return { kind: differing, isError, wanted, seen: String(tree) };
  const isCall = made.config.module === 'Iife';
  const seen = await bundleDone(tree, `${name}-bundle`, isCall);
  const result = { isError, wanted, seen, text: textOf(tree) };
  if (seen === wanted) return { ...result, kind: alike };
  if (made.isStandard) return { ...result, kind: made.holdsItself ? held : differing };
  if (!made.isCyclic || !made.isFree) return { ...result, kind: differing };
  const standard = inOrder(tree, made.orderOf(entry), isCall);
  const again = await bundleDone(standard, `${name}-ordered`, isCall);
  return again === wanted ? { ...result, kind: ordered } : { ...result, kind: differing, text: textOf(standard), seen: again };
}

const counted = () => ({ graphs: 0, [alike]: 0, [ordered]: 0, [held]: 0, [differing]: 0, clean: 0, errors: 0, holding: 0 });
const byNeeds = counted(), standard = counted();

// Compares the bundle of each entry of a graph.
async function go(kind, seed, made, counts) {
  counts.graphs += 1;
  made.config.order = made.isStandard ? 'Standard' : 'Needs';
  let trees;
  try { trees = linked(made); } catch (error) { trees = made.entries.map(() => error); }
  for (const [i, entry] of made.entries.entries()) {
    const result = await compared(made, entry, trees[i], `${seed}-${i}-${kind}`);
    counts[result.kind] += 1;
    counts[result.isError ? 'errors' : 'clean'] += 1;
    counts.holding += made.holdsItself;
    if (result.kind !== alike && +count === 1) {
      console.log(Object.entries(made.files).map(([file, text]) => `// ${file}\n${text}`).join('\n'));
      console.log(`entry ${entry}, ${result.kind}\n--- before\n${result.wanted}\n--- after\n${result.seen}\n--- bundle\n${result.text ?? ''}`);
    } else if (result.kind === differing) console.log(`seed ${seed}: ${entry} does otherwise: node run.mjs PROGRAM 1 ${seed} ${kind}`);
  }
}

for (const kind of kinds) {
  const { isFree = false, isStandard = false, isOfCycles = false } = KINDS[kind];
  for (let seed = +first, left = +count; left > 0; seed++) {
    const made = { ...graph(seed, isFree, isStandard), isFree, isStandard };
    if (isOfCycles && !made.isCyclic) continue;
    await go(kind, seed, made, isStandard ? standard : byNeeds);
    left -= 1;
  }
}
fs.rmSync(folder, { recursive: true });
const isCounted = (name, number) => spawnSync(fileURLToPath(new URL('../counted', import.meta.url)), [name, `${number}`], { stdio: 'inherit' }).status === 0;
const isWhole = +count !== 300 || +first !== 1 || asked.length > 0
  || [isCounted('seeds', byNeeds[alike]), isCounted('seeds-ordered', byNeeds[ordered]), isCounted('seeds-errors', byNeeds.errors),
    isCounted('seeds-standard', standard[alike] + standard[held]), isCounted('seeds-holding', standard.holding), isCounted('seeds-standard-errors', standard.errors)].every(Boolean);
const passed = byNeeds[alike] + byNeeds[ordered] + standard[alike] + standard[held], failed = byNeeds[differing] + standard[differing];
console.log(`seeds: by needs ${byNeeds.graphs} graphs: ${byNeeds[alike]} ${alike}, ${byNeeds[ordered]} ${ordered}; ${byNeeds.errors} end in an error`);
console.log(`seeds: in the standard's order ${standard.graphs} graphs: ${standard[alike]} ${alike}, ${standard[held]} otherwise ${held}, of ${standard.holding} that take one; ${standard.errors} end in an error`);
console.log(`seeds: ${passed} passed, ${failed} failed`);
process.exit(failed || !isWhole ? 1 : 0);
