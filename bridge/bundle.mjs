// The command: JavaScript modules on disk to one JavaScript module, by the program `bundle_json`. README.md says what it takes.
import fs from 'node:fs';
import path from 'node:path';
import { parseArgs } from 'node:util';
import { Failure } from './failure.mjs';

const usage = `bridge/bundle [OPTIONS] ENTRY.js.. > bundle.mjs

Follows what the entries import on disk, bundles it by the program bundle_json, and writes one
JavaScript module for each entry.

  -o, --output PATH    write to this file; to a folder of files NAME.mjs where there are several entries
      --iife           an IIFE, a script, in place of a module
      --require        CommonJS modules too: calls require('./file') load modules
      --external NAME  leave imports of this specifier as they are; may come again. Names that do not
                       begin with ./, ../ or / are left as they are without it
      --order WORD     of modules that form a cycle: standard (without it), in the order in which Node
                       runs them; or needs, their statements sorted by what they need
      --document       write the program's document, and do not bundle it
      --program FILE   the program to run, else that of the environment's BUNDLE_JSON
      --help           this text
`;

const options = {
  output: { type: 'string', short: 'o' },
  iife: { type: 'boolean', default: false },
  require: { type: 'boolean', default: false },
  external: { type: 'string', multiple: true, default: [] },
  order: { type: 'string', default: 'standard' },
  document: { type: 'boolean', default: false },
  program: { type: 'string', default: process.env.BUNDLE_JSON },
  help: { type: 'boolean', default: false },
};

const orders = ['standard', 'needs'];

// What is told on a terminal while there is work, on one line.
function progress(text) {
  if (process.stderr.isTTY) process.stderr.write(`\r\x1b[K${text.slice(0, (process.stderr.columns || 80) - 1)}`);
}

function command(words) {
  const { values, positionals: entries } = parsed(words);
  if (values.help) return process.stdout.write(usage);
  if (entries.length === 0) throw new Failure(`there is no entry\n\n${usage}`, 2);
  if (!orders.includes(values.order)) throw new Failure(`--order is ${orders.join(' or ')}\n\n${usage}`, 2);
  if (entries.length > 1 && !values.output && !values.document) {
    throw new Failure('several entries need a folder: -o FOLDER', 2);
  }
  return bundled(entries, values);
}

function parsed(words) {
  try {
    return parseArgs({ args: words, options, allowPositionals: true });
  } catch (error) {
    throw new Failure(`${error.message}\n\n${usage}`, 2);
  }
}

async function bundled(entries, values) {
  // Only here, so that --help needs no package.
  const { documentOf } = await import('./document.mjs');
  const { text, paths, cycles } = documentOf(entries, values, progress);
  if (values.document) return written(values.output, text);
  progress(`bundling ${paths.size} files`);
  const { answered } = await import('./program.mjs');
  const { bundles, refusal } = answered(values.program, text);
  if (refusal) {
    const { refusalText } = await import('./refusal.mjs');
    throw new Failure(refusalText(refusal, paths));
  }
  progress('');
  for (const cycle of cycles) process.stderr.write(`circular: ${cycle.join(' -> ')}\n`);
  const { textOf } = await import('./write.mjs');
  const { withRequire } = await import('./require.mjs');
  for (const { name, module } of bundles) {
    progress(`writing ${name}`);
    const whole = values.iife ? module : withRequire(module);
    written(outputOf(values, bundles, name), `${textOf(whole)}\n`);
  }
  return progress('');
}

// The file of a bundle, or none for standard output.
function outputOf({ output, iife }, bundles, name) {
  const isFolder = bundles.length > 1 || (output && fs.statSync(output, { throwIfNoEntry: false })?.isDirectory());
  return isFolder ? path.join(output, `${name}.${iife ? 'js' : 'mjs'}`) : output;
}

function written(file, text) {
  if (!file) {
    progress('');
    return process.stdout.write(text);
  }
  fs.mkdirSync(path.dirname(file), { recursive: true });
  return fs.writeFileSync(file, text);
}

// Who reads the output may have enough of it.
process.stdout.on('error', () => process.exit(1));

try {
  await command(process.argv.slice(2));
} catch (error) {
  if (!(error instanceof Failure) && !error.syscall) throw error;
  progress('');
  process.stderr.write(`bundle: ${error.message}\n`);
  process.exitCode = error.status ?? 1;
}
