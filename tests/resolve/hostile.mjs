// What a stranger may write into a package.json, or ask for: each is answered, with a word of the kind that stands
// beside it, and all of them in some seconds.

const entry = (exports) => JSON.stringify({ exports });
const keys = {};
for (let i = 0; i < 100000; i++) keys[`./${'a'.repeat(i % 50)}${i}*`] = './x*.js';
keys['./*'] = './index.js';

export const packages = {
  deep: `{"exports":${'['.repeat(200000)}${']'.repeat(200000)}}`,
  conditions: `{"exports":${'{"node":'.repeat(120)}"./index.js"${'}'.repeat(120)}}`,
  keys: entry(keys),
  stars: entry({ './*': `./${'*'.repeat(500000)}` }),
  doubled: `{"exports":{${'"import":"./index.js",'.repeat(200000)}"default":"./index.js"}}`,
  alternatives: entry([...Array(200000).fill('no target'), './index.js']),
};

export const requests = [
  ['deep', 'error', 'ERR_INVALID_PACKAGE_CONFIG'],
  ['conditions', 'file'],
  ['keys/b', 'file'],
  [`keys/${'a'.repeat(5000)}`, 'file'],
  [`stars/${'y'.repeat(60000)}`, 'error', 'TooLong'],
  ['doubled', 'file'],
  ['alternatives', 'file'],
  [`./${'../'.repeat(20000)}x`, 'error', 'ERR_MODULE_NOT_FOUND'],
  [`./${'a/'.repeat(20000)}x`, 'error', 'ERR_MODULE_NOT_FOUND'],
  ['y'.repeat(70000), 'error', 'TooLong'],
  [`./${'%'.repeat(60000)}`, 'error', 'URIError'],
  [`#${'/a'.repeat(30000)}`, 'error', 'ERR_PACKAGE_IMPORT_NOT_DEFINED'],
];
