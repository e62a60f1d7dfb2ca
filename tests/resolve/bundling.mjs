// What is found otherwise than by Node, on purpose, as bundlers find it: `import` too finds folders, and files by their
// endings (Node's `import` takes neither); the fields `module` and `browser` name main files, and a map `browser`
// replaces files and packages (Node knows neither field). The answers are esbuild 0.17's: `check.mjs PROGRAM --esbuild
// ESBUILD` asks it again.

const file = '// a file\n';
const json = (value) => JSON.stringify(value);
const packageAt = (folder, description, files) => ({
  ...Object.fromEntries(files.map((name) => [`${folder}/${name}`, file])),
  ...(description === undefined ? {} : { [`${folder}/package.json`]: json(description) }),
});
const lib = ['index.js', 'main.js', 'module.mjs', 'browser.js', 'browser.mjs', 'lib/index.js', 'lib/a.js', 'lib/b.js'];

export const tree = {
  name: 'bundling',
  files: {
    'a.js': file, 'b.mjs': file, 'c.cjs': file, 'd.json': '{}', 'e/index.js': file, 'f/index.mjs': file, 'f/index.js': file,
    'g/package.json': json({ main: './inner.js', module: './inner.mjs' }), 'g/inner.js': file, 'g/inner.mjs': file,
    'both.js': file, 'both.mjs': file, 'both/index.js': file, 'sp ace.js': file, 'entry.js': file,
    ...packageAt('node_modules/plain', { name: 'plain' }, lib),
    ...packageAt('node_modules/main', { main: './main.js' }, lib),
    ...packageAt('node_modules/module', { main: './main.js', module: './module.mjs' }, lib),
    ...packageAt('node_modules/only-module', { module: './module.mjs' }, lib),
    ...packageAt('node_modules/browser-text', { main: './main.js', browser: './browser.js' }, lib),
    ...packageAt('node_modules/browser-module', { main: './main.js', module: './module.mjs', browser: './browser.js' }, lib),
    ...packageAt('node_modules/browser-map', { main: './main.js', browser: {
      './main.js': './browser.js', './lib/a.js': false, './lib/b': './browser.js', fs: false, path: 'plain', plain: './lib/index.js',
      module: false,
    } }, lib),
    ...packageAt('node_modules/browser-package', { main: './main.js', browser: { './main.js': 'plain', './lib/a.js': 'plain/lib/b' } }, lib),
    ...packageAt('node_modules/browser-missing', { main: './gone.js', browser: {
      './gone.js': './browser.js', './lib/gone.js': './lib/b.js', './lib/off.js': false, './lib/away': 'plain', './lib/b.js': './nothing.js',
      './lib/a.js': 'nothing',
    } }, lib),
    ...packageAt('node_modules/browser-folder', { browser: { './lib/index.js': './browser.js', './other': './lib/a' } }, lib),
    ...packageAt('node_modules/fields', { main: './main.js', module: './gone.mjs', browser: './gone.js' }, lib),
    ...packageAt('node_modules/fields-gone', { main: './gone.js', module: './gone.mjs' }, lib),
    ...packageAt('node_modules/fields-main', { main: './gone.js', module: './module.mjs' }, lib),
    ...packageAt('node_modules/conditions', { exports: {
      '.': { browser: './browser.js', node: './main.js', default: './index.js' },
      './module': { module: './module.mjs', default: './main.js' },
      './import': { import: './module.mjs', require: './main.js' },
      './no-ending': './lib/a',
    } }, lib),
    ...packageAt('node_modules/@s/scoped', { main: './lib' }, lib),
  },
};

const specifiers = [
  './a', './b', './c', './d', './e', './e/', './f', './g', './g/', './both', './both/', './sp ace', './nothing',
  'plain', 'plain/lib', 'plain/lib/', 'plain/lib/a', 'plain/lib/a.js', 'plain/nothing', 'main', 'module', 'only-module',
  'browser-text', 'browser-module', 'browser-map', 'browser-map/lib/a', 'browser-map/lib/a.js', 'browser-map/lib/b',
  'browser-map/lib/b.js', 'browser-map/main', 'browser-package', 'browser-package/main', 'browser-package/lib/a', 'browser-package/lib/a.js',
  'browser-missing', 'browser-missing/gone', 'browser-missing/lib/gone', 'browser-missing/lib/gone.js', 'browser-missing/lib/off',
  'browser-missing/lib/away', 'browser-missing/lib/b', 'browser-missing/lib/a.js', 'browser-folder/lib', 'browser-folder/other',
  'fields', 'fields-gone', 'fields-main', 'conditions', 'conditions/module', 'conditions/import',
  'conditions/no-ending', '@s/scoped', '@s/scoped/main',
];
const inMissing = ['./gone', './gone.js', './off', './off.js', './away', './b', './a', '../gone', '../gone.js'];
const inMap = ['fs', 'path', 'plain', 'module', './a', './b', './b.js', '../main', '../main.js', '../browser.js'];

// The importer and the specifier of each request, made by `import` and by `require`, for both platforms.
export const requests = [
  ...specifiers.map((specifier) => ['entry.js', specifier]),
  ...inMap.map((specifier) => ['node_modules/browser-map/lib/index.js', specifier]),
  ...inMissing.map((specifier) => ['node_modules/browser-missing/lib/index.js', specifier]),
];
