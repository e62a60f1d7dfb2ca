// What the tests of the bridge stand on: checks that are counted, and commands that are run.
import assert from 'node:assert/strict';
import fs from 'node:fs';
import os from 'node:os';
import path from 'node:path';
import { spawnSync } from 'node:child_process';
import { fileURLToPath } from 'node:url';

export const here = path.dirname(fileURLToPath(import.meta.url));
export const top = path.resolve(here, '..', '..');
export const bridge = path.join(top, 'bridge', 'bundle');

/** A folder that is gone when the tests end. */
export const scratch = fs.mkdtempSync(path.join(os.tmpdir(), 'bridge-'));
process.on('exit', () => fs.rmSync(scratch, { recursive: true, force: true }));

const counts = { passed: 0, failed: 0 };

/** Counts a check, and tells it where it fails. */
export function check(name, body) {
  try {
    body();
    counts.passed += 1;
  } catch (error) {
    counts.failed += 1;
    console.log(`FAILED ${name}\n${error.message}\n`);
  }
}

export const { deepEqual, equal, match, ok } = assert;

/** Writes the last line and gives the status, which is 1 too where there are other checks than tests/counts has. */
export function counted() {
  const total = counts.passed + counts.failed;
  const { status, stdout, stderr } = run(path.join(top, 'tests', 'counted'), ['bridge', `${total}`]);
  process.stdout.write(stdout + stderr);
  console.log(`bridge: ${counts.passed} passed, ${counts.failed} failed`);
  return counts.failed === 0 && status === 0 ? 0 : 1;
}

/** Runs a command to its end: its output, its errors and its status; none where it cannot be run, or does not end. */
export function run(command, words, how = {}) {
  const { error, status, stdout, stderr } = spawnSync(command, words, { encoding: 'utf8', timeout: 240000, ...how });
  return { status, stdout: stdout ?? '', stderr: `${stderr ?? ''}${error?.message ?? ''}` };
}

/** Runs the bridge. */
export const bundled = (words, how) => run(bridge, words, how);

/**
 * What Node does with a file: what it writes, its status, and the kind of the error that ends it; and of a module that is
 * imported behind that the names of its exports, with what can be shown of their values.
 */
export const played = (file) => ended(['--no-warnings', file]);
export const imported = (file) => ended(['--no-warnings', path.join(here, 'exports.mjs'), file]);

function ended(words) {
  const { status, stdout, stderr } = run('node', words);
  return { status, stdout, error: /^(\w*Error)\b/m.exec(stderr)?.[1] };
}

/** A file in a folder of its own, with this text. */
export function fileOf(name, text) {
  const file = path.join(fs.mkdtempSync(path.join(scratch, 'file-')), name);
  fs.writeFileSync(file, text);
  return file;
}

/** The names of what stands in a folder. */
export const inFolder = (...parts) => fs.readdirSync(path.join(here, ...parts)).sort();
