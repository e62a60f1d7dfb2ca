// Folders with files, and what is asked for in them. Each request is made by `import` and by `require`.

const file = '// a file\n';
const json = (value) => JSON.stringify(value);

// The files of each package with a map.
const packageFiles = [
  'index.js', 'main.js', 'feature.js', 'data.json', 'addon.node', 'lib/a.js', 'lib/a.mjs', 'lib/b.js', 'lib/b.cjs',
  'lib/index.js', 'lib/sub/c.js', 'lib/sub/deep/d.js', 'lib/x y.js', 'lib/100%.js', 'lib/no-ending',
  'lib/node_modules/in/index.js', 'internal/secret.js', 'lib/.hidden.js', 'lib/a.b.js', 'lib/*.js',
];

const subpaths = ['', '/', '/lib/a.js', '/lib/a', '/feature', '/feature.js', '/lib/sub/c.js', '/nothing', '/package.json'];

// Maps `exports`, and further subpaths that are asked for.
const maps = [
  ['./main.js'],
  ['main.js'],
  ['../outside.js'],
  ['/main.js'],
  ['./nothing.js'],
  ['./lib'],
  ['./lib/'],
  ['./lib/a'],
  ['./lib/x y.js'],
  ['./lib/x%20y.js'],
  ['./lib%2fa.js'],
  ['./lib/../main.js'],
  ['./lib/./a.js'],
  ['./lib//a.js'],
  ['./node_modules/in/index.js'],
  ['./lib/node_modules/in/index.js'],
  ['./lib/NODE_modules/in/index.js'],
  ['./lib/%2e%2E/main.js'],
  ['./lib/a.js?query#hash'],
  ['./lib\\a.js'],
  ['./lib/100%.js'],
  ['./lib/100%25.js'],
  [''],
  ['.'],
  ['./'],
  [null],
  [false],
  [5],
  [[]],
  [['./main.js']],
  [['main.js', './main.js']],
  [['main.js', 'other.js']],
  [[null, './main.js']],
  [['./nothing.js', './main.js']],
  [[null]],
  [['main.js', null]],
  [[null, 'main.js']],
  [[{ never: './lib/a.js' }, './main.js']],
  [[{ never: './lib/a.js' }]],
  [[['./main.js']]],
  [{}],
  [{ default: './main.js' }],
  [{ import: './lib/a.mjs', require: './lib/b.cjs' }],
  [{ import: './lib/a.mjs', default: './main.js' }],
  [{ require: './lib/b.cjs', default: './main.js' }],
  [{ default: './main.js', import: './lib/a.mjs', require: './lib/b.cjs' }],
  [{ node: './main.js', import: './lib/a.mjs' }],
  [{ import: './lib/a.mjs', node: './main.js' }],
  [{ browser: './lib/a.js', default: './main.js' }],
  [{ never: './lib/a.js' }],
  [{ import: null, default: './main.js' }],
  [{ node: { import: './lib/a.mjs', require: './lib/b.cjs' }, default: './main.js' }],
  [{ node: { never: './lib/a.js' }, default: './main.js' }],
  [{ node: { never: './lib/a.js', default: null }, default: './main.js' }],
  [{ node: [], default: './main.js' }],
  [{ node: ['main.js'], default: './main.js' }],
  [{ node: 7, default: './main.js' }],
  [{ 'module-sync': './lib/a.js', default: './main.js' }],
  [{ 'node-addons': './lib/a.js', default: './main.js' }],
  [{ 0: './lib/a.js', default: './main.js' }],
  [{ 10: './lib/a.js', import: './main.js' }],
  [{ '01': './lib/a.js', default: './main.js' }],
  [{ 4294967295: './lib/a.js', default: './main.js' }],
  [{ 4294967294: './lib/a.js', default: './main.js' }],
  [{ '': './lib/a.js', default: './main.js' }],
  [{ '.': './main.js' }],
  [{ '.': './main.js', './feature': './feature.js' }],
  [{ '.': './main.js', feature: './feature.js' }],
  [{ feature: './feature.js', '.': './main.js' }],
  [{ './feature': './feature.js' }],
  [{ './feature': null, './*': './*.js' }],
  [{ './feature': { never: './lib/a.js' }, './*': './*.js' }],
  [{ '.': { import: './lib/a.mjs', require: './lib/b.cjs' }, './feature': { import: './lib/a.mjs' } }],
  [{ '.': [{ import: './lib/a.mjs' }, './main.js'] }],
  [{ './package.json': './package.json' }],
  [{ './lib/': './lib/' }, '/lib/', '/lib/sub/'],
  [{ './': './' }],
  [{ './*': './*' }, '/lib/', '/lib/x y.js', '/lib/x%20y.js', '/lib/./a.js', '/lib/../main.js', '/lib//a.js',
    '/lib/a.js?query', '/lib/a.js#hash', '/lib/node_modules/in/index.js', '/lib%2fa.js', '/LIB/a.js', '/lib/%2e%2e/main.js'],
  [{ './*': './*.js' }, '/lib/a', '/lib/sub/c', '/lib/no-ending', '/*', '/lib/*'],
  [{ './*.js': './*.js' }, '/lib/a.js', '/.js', '/lib/.hidden.js', '/lib/a.b.js'],
  [{ './lib/*': './lib/*.js' }, '/lib/a', '/lib/sub/c', '/lib/', '/lib/sub/deep/d'],
  [{ './lib/*': './lib/*.js', './lib/sub/*': null }, '/lib/a', '/lib/sub/c', '/lib/sub/deep/d'],
  [{ './lib/*': './lib/*.js', './lib/sub/*': './lib/a.js', './lib/sub/deep/*': './lib/sub/deep/*.js' },
    '/lib/a', '/lib/sub/c', '/lib/sub/deep/d'],
  [{ './lib/*.js': './lib/*.js', './lib/*': './lib/*.js' }, '/lib/a', '/lib/a.js', '/lib/a.b.js'],
  [{ './lib/a*': './lib/b.js', './lib/*': './lib/a.js' }, '/lib/a', '/lib/ab', '/lib/b'],
  [{ './lib/*': './lib/a.js', './lib/a*': './lib/b.js' }, '/lib/a', '/lib/ab', '/lib/b'],
  [{ './lib/*/c': './lib/*/c.js' }, '/lib/sub/c', '/lib/c', '/lib//c', '/lib/sub/deep/c'],
  [{ './*/*': './lib/a.js' }, '/lib/a.js', '/*/*'],
  [{ './a/*': './lib/*/../a.js' }, '/a/sub'],
  [{ './a/*': './lib/sub/c.js' }, '/a/anything', '/a/../x', '/a/node_modules', '/a/x/node_modules/y', '/a/.', '/a/.%2E/x'],
  [{ './double/*': './lib/*/*.js' }, '/double/sub', '/double/a'],
  [{ './a/*': ['../*.js', './lib/*.js'] }, '/a/a', '/a/nothing'],
  [{ './a/*': { import: './lib/*.mjs', require: './lib/*.cjs' } }, '/a/a', '/a/b'],
  [{ './a/*': null, './a/b': './lib/b.js' }, '/a/a', '/a/b'],
  [{ './a': './lib/a.js', './a/*': './lib/*.js' }, '/a', '/a/', '/a/b', '/a?query', '/a#hash'],
  [{ '.': './main.js', './*': { never: './*' } }],
  [{ './deep': { node: { import: { default: './lib/a.mjs' }, require: { default: ['x', './lib/b.cjs'] } } } }, '/deep'],
  [{ './.hidden': './lib/.hidden.js' }, '/.hidden'],
  [{ './a.b': './lib/a.b.js' }, '/a.b'],
  [{ './sp ace': './lib/x y.js', './sp%20ace': './lib/a.js' }, '/sp ace', '/sp%20ace'],
  [{ './ü': './lib/a.js', './*ß': './lib/*.js' }, '/ü', '/bß'],
  [undefined, '/lib', '/lib/', '/lib/no-ending', '/lib/b', '/data', '/addon', '/lib/x y.js', '/lib/x%20y.js',
    '/lib/a.js?query', '/lib/a.js#hash', '/lib/sub/../a.js', '/lib/%2e%2e/main.js', '/lib%2fa.js'],
];

// Maps `imports` of the package that asks, and what it asks for.
const imports = [
  [{ '#a': './lib/a.js' }, '#a', '#b', '#', '#/', '#a/', '#a/b', '#A'],
  [{ '#a': 'dependency' }, '#a'],
  [{ '#a': 'dependency/lib/a.js' }, '#a'],
  [{ '#a': 'missing' }, '#a'],
  [{ '#a': '@scope/dependency' }, '#a'],
  [{ '#a': 'fs' }, '#a'],
  [{ '#a': 'node:fs' }, '#a'],
  [{ '#a': 'https://example.com/x.js' }, '#a'],
  [{ '#a': '../outside.js' }, '#a'],
  [{ '#a': '/lib/a.js' }, '#a'],
  [{ '#a': '.' }, '#a'],
  [{ '#a': '' }, '#a'],
  [{ '#a': '#b', '#b': './lib/b.js' }, '#a', '#b'],
  [{ '#a': null }, '#a'],
  [{ '#a': false }, '#a'],
  [{ '#a': [] }, '#a'],
  [{ '#a': ['../outside.js', './lib/a.js'] }, '#a'],
  [{ '#a': ['./nothing.js', './lib/a.js'] }, '#a'],
  [{ '#a': { import: './lib/a.mjs', require: './lib/b.cjs' } }, '#a'],
  [{ '#a': { import: 'dependency', default: './lib/b.cjs' } }, '#a'],
  [{ '#a': { never: './lib/a.js' } }, '#a'],
  [{ '#a': { 1: './lib/a.js' } }, '#a'],
  [{ '#lib/*': './lib/*.js' }, '#lib/a', '#lib/sub/c', '#lib/', '#lib/../main', '#lib/nothing', '#lib/*'],
  [{ '#lib/*': './lib/*.js', '#lib/sub/*': null }, '#lib/a', '#lib/sub/c'],
  [{ '#lib/*.js': './lib/*.js', '#lib/*': './lib/*.mjs' }, '#lib/a', '#lib/a.js'],
  [{ '#dep/*': 'dependency/*' }, '#dep/lib/a.js', '#dep/nothing.js'],
  [{ '#*': './lib/*.js' }, '#a', '#sub/c'],
  [{ '#a*b': './lib/*.js' }, '#aab', '#ab'],
  [{ '#*/*': './lib/a.js' }, '#a/b'],
  [{ '#a/b': './lib/a.js' }, '#a/b', '#a'],
  [{ 'no-hash': './lib/a.js' }, 'no-hash', '#no-hash'],
  [{}, '#a'],
  [[], '#a'],
  ['./lib/a.js', '#a'],
  [null, '#a'],
];

// What a package without `exports` says of its main file.
const mains = [
  {}, { main: 'main.js' }, { main: './main.js' }, { main: 'main' }, { main: 'lib' }, { main: './lib/' },
  { main: 'lib/sub' }, { main: 'nothing' }, { main: 'nothing.js' }, { main: '' }, { main: '.' }, { main: './' },
  { main: 5 }, { main: 'data' }, { main: 'data.json' }, { main: 'lib/x y.js' }, { main: 'lib/x%20y.js' },
  { main: '../other/main.js' }, { main: 'lib/no-ending' }, { module: 'lib/a.mjs' }, { module: 'lib/a.mjs', main: 'main.js' },
  { browser: 'lib/a.js' }, { browser: './lib/a.js', main: 'main.js' }, { exports: null, main: 'main.js' },
  { main: 'main.js?query' }, { main: 'lib/index' }, { type: 'module' }, { type: 'module', main: 'lib/a' },
];

function packageAt(folder, description, files = packageFiles) {
  return {
    ...Object.fromEntries(files.map((name) => [`${folder}/${name}`, file])),
    ...(description === undefined ? {} : { [`${folder}/package.json`]: json(description) }),
  };
}

function mapsTree() {
  const files = { 'main.js': file };
  const requests = [];
  maps.forEach(([exports, ...more], i) => {
    const name = `map${i}`;
    Object.assign(files, packageAt(`node_modules/${name}`, { name, main: './main.js', exports }));
    for (const subpath of [...subpaths, ...more]) requests.push(['main.js', name + subpath]);
  });
  return { name: 'maps', files, requests };
}

// Each package asks for itself: a name that it has, in its own files.
function selfTree() {
  const files = {};
  const requests = [];
  maps.forEach(([exports, ...more], i) => {
    const name = i % 2 ? `@own/self${i}` : `self${i}`;
    Object.assign(files, packageAt(`p${i}`, { name, main: './main.js', exports }));
    for (const subpath of ['', '/feature', '/lib/a', ...more.slice(0, 3)]) {
      requests.push([`p${i}/lib/a.js`, name + subpath]);
    }
  });
  Object.assign(files, packageAt('node_modules/self1', { name: 'self1' }));
  return { name: 'self', files, requests };
}

function importsTree() {
  const files = {
    ...packageAt('node_modules/dependency', { name: 'dependency', main: 'main.js' }),
    ...packageAt('node_modules/@scope/dependency', { exports: './lib/a.js' }),
    ...packageAt('node_modules/#a', { main: 'main.js' }),
  };
  const requests = [];
  imports.forEach(([map, ...names], i) => {
    Object.assign(files, packageAt(`p${i}`, { name: `p${i}`, imports: map }));
    for (const name of names) requests.push([`p${i}/lib/sub/c.js`, name]);
  });
  return { name: 'imports', files, requests };
}

function mainsTree() {
  const files = { ...packageAt('node_modules/other', {}) };
  const requests = [];
  mains.forEach((description, i) => {
    Object.assign(files, packageAt(`node_modules/main${i}`, description));
    requests.push(['a.js', `main${i}`], ['a.js', `main${i}/`], ['a.js', `./node_modules/main${i}`]);
  });
  return { name: 'mains', files, requests };
}

// Paths.
function pathsTree() {
  const files = Object.fromEntries(
    ['a.js', 'a.json', 'a.mjs', 'both', 'both.js', 'b.json', 'c.node', 'd/index.js', 'd/index.json', 'd.js', 'e/index.json',
      'e/file.js', 'f/package.json', 'f/main.js', 'sp ace.js', '100%.js', 'a%20b.js', 'ques?tion.js', 'ha#sh.js',
      'plus+.js', 'ü.js', 'back\\slash.js', 'up/down/x.js', 'x.mjs', 'x.cjs', 'deep/er/index.js', 'dot.file', 'k.js',
      'k/index.js', 'lib/package.json', 'lib/index.js', 'empty/none.txt', 'bad/package.json', 'bad/index.js',
      'list/package.json', 'list/index.js', '.dot/index.js', '.env.js', 'a:b.js', 'tab\tname.js',
    ].map((name) => [name, file]),
  );
  files['f/package.json'] = json({ main: 'main' });
  files['lib/package.json'] = json({ name: 'lib' });
  files['bad/package.json'] = '{ "main": ';
  files['list/package.json'] = '[]';
  const own = [
    './a', './a.js', './a.json', './a.mjs', './both', './b', './b.json', './c', './c.node', './d', './d/', './d/.', './d.js',
    './d/index', './d/index.js', './d/../a.js', './e', './e/', './f', './f/', './f/main', './x', './x.mjs', './x.cjs',
    './sp ace.js', './sp%20ace.js', './100%.js', './100%25.js', './a%20b.js', './a%2520b.js', './ques?tion.js',
    './ques%3Ftion.js', './ha#sh.js', './ha%23sh.js', './plus+.js', './plus%2B.js', './ü.js', './%C3%BC.js', './%FF.js',
    './back\\slash.js', './back%5Cslash.js', './up/down/x.js', './up\\down\\x.js', './up%2Fdown/x.js', './up/./down/x.js',
    './up//down/x.js', './up/%2e/down/x.js', './up/%2E%2e/a.js', './up/nothing/../down/x.js', './a.js?', './a.js#',
    './a.js?v=1', './a.js#h', './a.js?v=1#h', './a.js#h?v', './a.js/', './a.js/.', './nothing', './nothing.js', '.', './',
    './.', '..', '../', '../paths/a.js', './deep/er', './deep/er/', './deep', './dot.file', './dot', './k', './k/', './lib',
    './lib/', './empty', './empty/', './bad', './bad/index.js', './list', './list/index.js', './.dot', './.dot/index.js',
    './.env', './.env.js', './a:b.js', ' ./a.js', './a.js ', './tab\tname.js', './tab%09name.js', '', ' ', '%2e/a.js',
    './/a.js', './/a.js', '...', '.../a.js', './a.js%00', './a.js\0', './%61.js', './A.js',
    '@TOP/paths/a.js', '@TOP/paths/a', '@TOP/paths/d', '@TOP/paths/sp%20ace.js', '@TOP/paths/../paths/a.js',
    'file://@TOP/paths/a.js', 'file:@TOP/paths/a.js', 'file://localhost@TOP/paths/a.js', 'file://host@TOP/paths/a.js',
    'FILE://@TOP/paths/a.js', 'file://@TOP/paths/a', 'file://@TOP/paths/d', 'file://@TOP/paths/sp%20ace.js',
    'file://@TOP/paths/a.js?v#h', '/@TOP/paths/a.js',
    'fs', 'node:fs', 'fs/promises', 'node:fs/promises', 'fs/', 'node:fs/', 'node:nothing', 'nothing', 'test', 'node:test',
    'node:test/reporters', 'node:sqlite', 'sqlite', 'path/posix', 'sys', 'punycode', '_http_agent', 'node:_http_agent',
    'Node:fs', 'node:', 'fs?x', 'node:fs?x',
    'https://example.com/a.js', 'data:text/javascript,1', 'http:', 'a.js', 'a', '@', '@a', '@/a', '@a/', 'a%20b', '.a', 'a\\b',
  ];
  const deep = ['./x.js', './x', '../down', '../down/', '../../a', '../../d', '../..', '../../', '..', '.', '/a', '../../../paths/a.js'];
  return {
    name: 'paths',
    files,
    requests: [
      ...own.map((specifier) => ['a.js', specifier]),
      ...deep.map((specifier) => ['up/down/x.js', specifier]),
    ],
  };
}

// Folders node_modules, one below another, and links.
function nestedTree() {
  const files = {
    ...packageAt('node_modules/one', { name: 'one', version: '1.0.0' }, ['index.js', 'only-outer.js']),
    ...packageAt('node_modules/two', { name: 'two', exports: { '.': './index.js', './x': './x.js' } }, ['index.js', 'x.js']),
    ...packageAt('node_modules/@s/p', { name: '@s/p', main: 'lib' }, ['index.js', 'lib/index.js', 'lib/x.js']),
    ...packageAt('node_modules/@s/q', undefined, ['index.js']),
    ...packageAt('node_modules/bare', undefined, ['index.js', 'x/index.js']),
    ...packageAt('node_modules/dir-only', undefined, ['readme.txt']),
    ...packageAt('node_modules/broken', undefined, ['index.js', 'x.js']),
    ...packageAt('node_modules/nul', { name: 'nul', exports: null, main: './x.js' }, ['index.js', 'x.js']),
    'node_modules/broken/package.json': '{',
    'node_modules/single.js': file,
    'node_modules/data.json': '{}',
    'node_modules/double/package.json': '{"exports": {"import": "./a.js", "default": "./b.js", "import": "./c.js"}, "main": "b"}',
    'node_modules/double/a.js': file,
    'node_modules/double/b.js': file,
    'node_modules/double/c.js': file,
    'node_modules/bom/package.json': '\ufeff{"main": "./x.js"}',
    'node_modules/bom/x.js': file,
    'node_modules/bom/index.js': file,
    ...packageAt('app/node_modules/one', { name: 'one', version: '2.0.0' }, ['index.js', 'inner.js']),
    ...packageAt('app/node_modules/two', undefined, ['index.js']),
    ...packageAt('app/node_modules/one/node_modules/three', { name: 'three' }, ['index.js']),
    ...packageAt('app/node_modules/no-folder', undefined, ['x.js']),
    'app/package.json': json({ name: 'app', exports: { '.': './main.js', './x': './src/x.js' }, imports: { '#x': './src/x.js' } }),
    'app/main.js': file,
    'app/src/x.js': file,
    'app/src/deep/package.json': json({ type: 'module' }),
    'app/src/deep/y.js': file,
    'app/node_modules/node_modules/odd/index.js': file,
    'app/node_modules/node_modules/odd/package.json': '{}',
  };
  const names = [
    'one', 'one/only-outer.js', 'one/inner', 'one/inner.js', 'one/package.json', 'two', 'two/x', 'two/x.js', 'three', '@s/p',
    '@s/p/lib/x', '@s/p/lib/x.js', '@s/q', '@s', '@s/', '@s/none', 'bare', 'bare/', 'bare/x', 'bare/x/', 'dir-only', 'broken',
    'broken/x.js', 'nul', 'nul/x.js', 'single', 'single.js', 'data', 'data.json', 'double', 'bom', 'no-folder', 'no-folder/x',
    'app', 'app/x', 'app/main.js', '#x', 'odd', 'node_modules/odd', 'ONE', 'one?q', 'one#h', 'one/inner.js?q', 'linked',
    'linked/x', 'linked/x.js', 'missing-link',
  ];
  const importers = ['main.js', 'app/main.js', 'app/src/deep/y.js', 'app/node_modules/one/index.js', 'node_modules/one/index.js',
    'store/linked/index.js', 'node_modules/linked/index.js'];
  Object.assign(files, packageAt('store/linked', { name: 'linked', main: 'x' }, ['index.js', 'x.js']));
  Object.assign(files, packageAt('store/node_modules/three', { name: 'three' }, ['index.js']));
  return {
    name: 'nested',
    files,
    links: { 'node_modules/linked': '../store/linked', 'node_modules/missing-link': '../store/nothing', 'link.js': 'app/main.js', 'folder-link': 'app/src' },
    requests: [
      ...importers.flatMap((importer) => names.map((name) => [importer, name])),
      ...['./link', './link.js', './folder-link/x', './folder-link/x.js', './folder-link'].map((s) => ['main.js', s]),
    ],
  };
}

export const trees = () => [pathsTree(), mapsTree(), selfTree(), importsTree(), mainsTree(), nestedTree()];
