// The time that others take in one process after its start: `node peers.mjs ACORN GOAL FILE..` writes in JSON the processor
// seconds that acorn and Babel take to read these texts, and Babel to print them, the first time and the best of five.
import fs from 'node:fs';
import { createRequire } from 'node:module';
import { generate, parse } from '../../bridge/babel.mjs';

const [acornFile, goal, ...files] = process.argv.slice(2);
const acorn = createRequire(import.meta.url)(acornFile);
const texts = files.map((file) => fs.readFileSync(file, 'utf8'));
const sourceType = { module: 'module', commonjs: 'script' }[goal];

const timed = (work) => {
  const begun = process.cpuUsage();
  work();
  const { user, system } = process.cpuUsage(begun);
  return (user + system) / 1e6;
};
const firstAndBest = (work) => {
  const first = timed(work);
  return { first, best: Math.min(first, ...Array.from({ length: 5 }, () => timed(work))) };
};

const acornReads = firstAndBest(() => texts.forEach((text) => acorn.parse(text, {
  sourceType, ecmaVersion: 2022, allowReturnOutsideFunction: goal === 'commonjs', allowHashBang: true,
})));
let trees;
const babelReads = firstAndBest(() => {
  trees = texts.map((text) => parse(text, { sourceType, allowReturnOutsideFunction: goal === 'commonjs' }));
});
const babelPrints = firstAndBest(() => trees.forEach((tree) => generate(tree, { comments: false })));
console.log(JSON.stringify({ acornReads, babelReads, babelPrints }));
