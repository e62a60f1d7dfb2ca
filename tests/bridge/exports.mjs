// node exports.mjs FILE: imports a module, and writes the names of its exports with what can be shown of their values.
import path from 'node:path';
import { pathToFileURL } from 'node:url';

function shown(value) {
  try {
    return typeof value === 'function' ? 'a function' : JSON.stringify(value) ?? String(value);
  } catch {
    return `an ${typeof value}`;
  }
}

const module = await import(pathToFileURL(path.resolve(process.argv[2])));
const lines = Object.keys(module).sort().map((name) => `${JSON.stringify(name)} ${shown(module[name])}`);
console.log(`exports: ${lines.join('\n')}`);
