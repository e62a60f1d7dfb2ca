// Requests whose answer differs from the judge's on purpose: what is answered here, and what the judge answers.

const groups = [
  // An empty specifier and a NUL are errors of their own.
  {
    'paths import a.js ': { here: ['error', 'ERR_INVALID_ARG_VALUE'], judge: ['error', 'ERR_MODULE_NOT_FOUND'] },
    'paths require a.js ': { here: ['error', 'ERR_INVALID_ARG_VALUE'], judge: ['error', 'MODULE_NOT_FOUND'] },
    'paths import a.js ./a.js\0': { here: ['error', 'ERR_INVALID_ARG_VALUE'], judge: ['file', '/paths/a.js', ''] },
  },
  // Modules of later versions of Node's.
  {
    'paths import a.js node:sqlite': { here: ['builtin', 'sqlite'], judge: ['error', 'ERR_UNKNOWN_BUILTIN_MODULE'] },
    'paths require a.js node:sqlite': { here: ['builtin', 'sqlite'], judge: ['error', 'MODULE_NOT_FOUND'] },
  },
  // What begins as an address is one, also where Node's reader of addresses refuses it.
  {
    'paths import a.js http:': { here: ['external', 'http:'], judge: ['error', 'ERR_MODULE_NOT_FOUND'] },
  },
  // An entry of `imports` may be one of Node's modules for `require` too; an empty text there is no target.
  {
    'imports require p5/lib/sub/c.js #a': { here: ['builtin', 'fs'], judge: ['error', 'ERR_INVALID_URL_SCHEME'] },
    'imports import p11/lib/sub/c.js #a': { here: ['error', 'ERR_INVALID_PACKAGE_TARGET'], judge: ['error', 'ERR_MODULE_NOT_FOUND'] },
    'imports require p11/lib/sub/c.js #a': { here: ['error', 'ERR_INVALID_PACKAGE_TARGET'], judge: ['error', 'MODULE_NOT_FOUND'] },
  },
  // The field `main` is a path for both loaders: Node's `import` reads it as an address.
  {
    'mains import a.js main16': { here: ['file', '/mains/node_modules/main16/index.js', ''], judge: ['file', '/mains/node_modules/main16/lib/x y.js', ''] },
    'mains import a.js main24': { here: ['file', '/mains/node_modules/main24/index.js', ''], judge: ['file', '/mains/node_modules/main24/main.js', '?query'] },
  },
  // No package is sought in `node_modules/node_modules`, as `require` has it.
  {
    'nested import app/node_modules/one/index.js odd': { here: ['error', 'ERR_MODULE_NOT_FOUND'], judge: ['file', '/nested/app/node_modules/node_modules/odd/index.js', ''] },
  },
  // A slash at the end means the folder, as in Node; esbuild 0.17 passes over it.
  Object.fromEntries(
    ['bundle import', 'bundle require', 'browser import', 'browser require'].map((way) => [
      `${way} entry.js ./both/`,
      { here: ['file', '/bundling/both/index.js', ''], judge: ['file', '/bundling/both.mjs', ''] },
    ]),
  ),
  // A key of the map `browser` without an ending names the file, however it is asked for; in esbuild it names a text.
  Object.fromEntries(
    ['browser import entry.js browser-map/lib/b.js', 'browser require entry.js browser-map/lib/b.js',
      'browser import node_modules/browser-map/lib/index.js ./b.js', 'browser require node_modules/browser-map/lib/index.js ./b.js',
    ].map((key) => [
      key,
      { here: ['file', '/bundling/node_modules/browser-map/browser.js', ''], judge: ['file', '/bundling/node_modules/browser-map/lib/b.js', ''] },
    ]),
  ),
  // Where the file that `main` names is not there, the index takes its place before `module`, as in Node.
  Object.fromEntries(
    ['bundle import', 'bundle require', 'browser require'].map((way) => [
      `${way} entry.js fields-main`,
      {
        here: ['file', '/bundling/node_modules/fields-main/index.js', ''],
        judge: ['file', '/bundling/node_modules/fields-main/module.mjs', ''],
      },
    ]),
  ),
  // A package takes the place of a main file too; esbuild 0.17 takes the index then.
  Object.fromEntries(
    ['browser import', 'browser require'].map((way) => [
      `${way} entry.js browser-package`,
      {
        here: ['file', '/bundling/node_modules/plain/index.js', ''],
        judge: ['file', '/bundling/node_modules/browser-package/index.js', ''],
      },
    ]),
  ),
];

export const differences = Object.assign({}, ...groups);
