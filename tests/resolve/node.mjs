// What Node answers: for each request of the file that is named, a line of JSON. Begun with
// --experimental-import-meta-resolve.

import { readFileSync, realpathSync, statSync } from 'node:fs';
import { createRequire, isBuiltin } from 'node:module';
import { isAbsolute } from 'node:path';
import { fileURLToPath, pathToFileURL } from 'node:url';

function kindOf(path) {
  try {
    const stat = statSync(path);
    return stat.isFile() ? 'file' : stat.isDirectory() ? 'folder' : 'missing';
  } catch {
    return 'missing';
  }
}

// import.meta.resolve gives an address also where no file is, or a folder; the loader then refuses it.
function byImport(importer, specifier) {
  const address = new URL(import.meta.resolve(specifier, pathToFileURL(importer).href));
  if (address.protocol === 'node:') {
    return isBuiltin(address.href) ? ['builtin', address.pathname] : ['error', 'ERR_UNKNOWN_BUILTIN_MODULE'];
  }
  if (address.protocol !== 'file:') return ['external', specifier];
  const path = fileURLToPath(address);
  const kind = path.endsWith('/') ? 'folder' : kindOf(path);
  if (kind === 'folder') return ['error', 'ERR_UNSUPPORTED_DIR_IMPORT'];
  if (kind === 'missing') return ['error', 'ERR_MODULE_NOT_FOUND'];
  return ['file', realpathSync(path), /[?#].*$/s.exec(address.href)?.[0] ?? ''];
}

function byRequire(importer, specifier) {
  const path = createRequire(importer).resolve(specifier);
  if (!isAbsolute(path)) return ['builtin', path.replace(/^node:/, '')];
  return ['file', path, ''];
}

for (const line of readFileSync(process.argv[2], 'utf8').trimEnd().split('\n')) {
  const [loader, importer, specifier] = JSON.parse(line);
  let answer;
  try {
    answer = (loader === 'import' ? byImport : byRequire)(importer, specifier);
  } catch (error) {
    answer = ['error', error.code ?? error.name];
  }
  console.log(JSON.stringify(answer));
}
