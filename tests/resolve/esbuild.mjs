// What esbuild answers: ask(program, top, settings, requests).

import { execFileSync } from 'node:child_process';
import { mkdtempSync, readFileSync, rmSync } from 'node:fs';
import { tmpdir } from 'node:os';
import { dirname, join } from 'node:path';

const endings = '.mjs,.js,.cjs,.json';

function askOne(program, settings, [loader, importer, specifier]) {
  const folder = mkdtempSync(join(tmpdir(), 'esbuild-'));
  const text = JSON.stringify(specifier);
  const input = loader === 'import' ? `import ${text}` : `require(${text})`;
  const platform = settings === 'browser' ? 'browser' : 'node';
  try {
    execFileSync(program, [
      '--bundle', '--format=esm', `--platform=${platform}`, `--resolve-extensions=${endings}`, '--log-level=silent',
      `--outfile=${folder}/out.js`, `--metafile=${folder}/meta.json`, `--sourcefile=${importer}`,
    ], { input, cwd: dirname(importer), stdio: ['pipe', 'ignore', 'ignore'] });
    const { inputs } = JSON.parse(readFileSync(join(folder, 'meta.json'), 'utf8'));
    const own = Object.keys(inputs).filter((path) => inputs[path].imports.length > 0)[0];
    if (own === undefined) return ['builtin', specifier];
    const [{ path, external }] = inputs[own].imports;
    if (external) return ['builtin', path];
    const disabled = path.startsWith('(disabled):');
    const plain = path.replace(/^\(disabled\):/, '');
    return disabled ? ['empty'] : ['file', join(dirname(importer), plain), ''];
  } catch {
    return ['error', 'ERR_MODULE_NOT_FOUND'];
  } finally {
    rmSync(folder, { recursive: true, force: true });
  }
}

export const askEsbuild = (program, settings, requests) => requests.map((request) => askOne(program, settings, request));
