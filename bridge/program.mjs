// The program that bundles: where it is, and what it answers to a document.
import fs from 'node:fs';
import path from 'node:path';
import { spawnSync } from 'node:child_process';
import { fileURLToPath } from 'node:url';
import { Failure } from './failure.mjs';

const bridge = path.dirname(fileURLToPath(import.meta.url));
const built = (...parts) => path.join(bridge, ...parts);

/** Where `bundle_json` may be: as the user says, else the proved program, else the one that `bridge/build` makes. */
export const programs = (given) => (given ? [given]
  : [built('..', 'crates', 'bundle_json', 'out', 'bundle_json'), built('out', 'bundle_json')]);

// The program that says where a document is refused, where it is of this text.
function teller() {
  const given = process.env.BUNDLE_JSON_TOLD;
  const program = given ?? built('out', 'bundle_json_told');
  return isFile(program) && (given || !fault(program)) ? program : undefined;
}

const isFile = (file) => fs.statSync(file, { throwIfNoEntry: false })?.isFile() ?? false;

// Why a program is not to be run, or nothing where it is made of the text that stands here.
function fault(program) {
  const { status, stdout, error } = spawnSync(built('stamp'), ['is', program], { encoding: 'utf8' });
  if (error) throw new Failure(`${built('stamp')} cannot be run: ${error.message}`);
  return status === 0 ? '' : stdout.trim();
}

// The program to run: as the user says, or the first of this text.
function chosen(given) {
  const files = programs(given).filter(isFile);
  const program = given ? files[0] : files.find((file) => !fault(file));
  if (program) return program;
  const why = files.length > 0 ? files.map(fault).join('\n') : `there is no program to run at ${programs(given).join(' or ')}`;
  throw new Failure(`${why}\nbridge/build makes it in some minutes, and bridge/build --proved proves and makes it`);
}

const run = (program, document) => {
  const ran = spawnSync(program, [], { input: document, maxBuffer: Infinity });
  // A program that does not read all of it may be right: it answers by its status.
  if (ran.error && ran.error.code !== 'EPIPE') throw new Failure(`${program} cannot be run: ${ran.error.message}`);
  if (ran.signal) throw new Failure(`${program} was ended by ${ran.signal}: it ran out of memory or of stack`);
  return ran;
};

/**
 * What the program answers to a document: `bundles`, or `refusal` with its number, its name and, where the second program
 * is there, the file and the name in it that are meant.
 */
export function answered(given, document) {
  const program = chosen(given);
  const ran = run(program, document);
  if (ran.status === 0) return { bundles: JSON.parse(ran.stdout.toString()) };
  const line = ran.stderr.toString().trim();
  const [, number, name] = /^error (\d+): (\w+)$/.exec(line) ?? [];
  if (!name) throw new Failure(`${program} ended with status ${ran.status}: ${line}`);
  return { refusal: { number: Number(number), name, ...told(document, line) } };
}

// The file and the name of a refusal, of the second program, where that refuses alike.
function told(document, line) {
  const program = teller();
  if (!program) return {};
  const [first, second] = run(program, document).stderr.toString().split('\n');
  if (first !== line) return {};
  const place = JSON.parse(second);
  return { file: place.file, word: place.name };
}
