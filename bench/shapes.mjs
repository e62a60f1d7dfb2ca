// The documents that the program is timed on: each a shape, made at any size.
//
//   node bench/shapes.mjs SHAPE N        the document, on standard output
import { argv } from 'node:process';
import { colliding, seeds } from './colliding.mjs';
import {
  array, arrow, assigned, binary, call, chosen, constant, declared, each, exported, given, id, imported, lambda, made,
  member, meta, method, number, object, property, run, starred, variables, whole,
} from './trees.mjs';

const upTo = (count, make) => Array.from({ length: count }, (_, at) => make(at));

// Numbers that look random, the same in each run.
function random(seed) {
  let state = seed;
  return (bound) => {
    state = (state * 1103515245 + 12345) & 0x7fffffff;
    return state % bound;
  };
}

// A module of a graph: what it asks for, constants and a function that are called the same in every module, so that
// they clash, and a function of its own that uses them.
const module_of = (at, asks, use, constants = 1) => [
  ...asks,
  ...upTo(constants, (which) => constant(`local${which}`, object([
    property('a', which),
    property('b', array([at, which])),
    method('f', ['x'], [constant('y', binary('x', '+', which)), given('y')]),
  ]))),
  declared('helper', ['a', ['b', arrow([], 'a')]], [
    variables('let', ['t', 0]),
    each('v', array(['a', call('b')]), [run({ ...assigned({ type: 'BindingIdent', id: id('t') }, 'v'), op: '+=' })]),
    given('t'),
  ]),
  exported(declared(`f${at}`, ['n'], [
    given(chosen(binary('n', '>', 0), call('helper', call(member('local0', 'f'), 'n'), arrow([], at)), use)),
  ])),
];

const all = (names) => exported(constant('r', member(array(names), 'length')));
const used = (count) => all(upTo(count, (at) => call(`f${at}`, 1)));
const file = (at) => `./m${at}`;

// A graph of modules m0, m1, .. and a main one.
function graph(count, memberOf, main, config = {}) {
  const files = Object.fromEntries(upTo(count, (at) => [`m${at}.js`, memberOf(at)]));
  return { config, files: { ...files, 'main.js': main }, entries: [['main', 'main.js']] };
}

const takes = (at) => imported(file(at), [[`f${at}`, 'prev']]);
const main_of_last = (count) => [imported(file(count - 1), [[`f${count - 1}`, 'last']]), all([call('last', 1)])];
const main_of_all = (count) => [...upTo(count, (at) => imported(file(at), [[`f${at}`, `f${at}`]])), used(count)];

// Each imports up to five earlier ones.
function randomly(count, constants) {
  const below = random(12345);
  return graph(count, (at) => {
    const of = [...new Set(upTo(Math.min(5, at), () => below(at)))];
    const sum = of.reduce((left, which) => binary(left, '+', call(`d${which}`, 1)), number(0));
    return module_of(at, of.map((which) => imported(file(which), [[`f${which}`, `d${which}`]])), sum, constants);
  }, main_of_all(count));
}

// One module of so many statements.
const alone = (statements) => ({ config: {}, files: { 'main.js': statements }, entries: [['main', 'main.js']] });

// Two modules of so many items: item `at` of the first needs one of the second, which needs item `at + 1` of the first.
// With `ahead` 1 the items of each module need later ones of it by way of the other, which the order goes back for.
function over_a_border(count, ahead) {
  const side = (own, other, step) => [
    imported(`./${other}`, upTo(count, (at) => [`${other}${at}`, `${other}${at}`])),
    ...upTo(count, (at) => exported(declared(`${own}${at}`, [], [given(at + step < count ? call(`${other}${at + step}`) : at)]))),
  ];
  return {
    config: {},
    files: { 'a.js': side('a', 'b', ahead), 'b.js': side('b', 'a', 1), 'main.js': [imported('./a', [['a0', 'a0']]), all(['a0'])] },
    entries: [['main', 'main.js']],
  };
}

// Modules without statements, each with what it asks for.
const bare = (specifier) => imported(specifier, []);
const empties = (count, asksOf, config = {}) => graph(count, (at) => asksOf(at).map((to) => (typeof to === 'number' ? bare(file(to)) : to)), [bare(file(0))], config);
const ahead = (count, at, step = 1) => (at + step < count ? [at + step] : []);
const outside = (at) => `ext${at}`;

// Names that strangers choose, for the two that are compared: all with one hash, or with hashes of their own.
const chosen_names = {};
function names(kind, count) {
  const which = {
    file: { seed: seeds.file, end: '.js' }, specifier: { start: './' }, label: { seed: seeds.label }, owner: { seed: seeds.owner }, text: {},
  }[kind];
  const most = Math.max(count, chosen_names[kind]?.alike.length ?? 0);
  if (chosen_names[kind]?.alike.length !== most) chosen_names[kind] = colliding(most, which);
  return { alike: chosen_names[kind].alike.slice(0, count), apart: chosen_names[kind].apart.slice(0, count) };
}

const of_names = {
  // Symbols: functions that call each other, with a variable in each of the name of another.
  symbols: (list) => alone(list.map((name, at) => declared(name, ['n'], [
    constant(list[(at + 7) % list.length], 'n'), given(call(list[(at + 1) % list.length], list[(at + 7) % list.length])),
  ]))),
  // Exported names, which another module imports and reads.
  exports: (list) => ({
    config: {},
    files: {
      'a.js': list.map((name, at) => exported(constant(name, at))),
      'main.js': [imported('./a', list.map((name) => [name, name])), whole('./a', 'names'), ...list.map((name) => run(call('use', name, member('names', name))))],
    },
    entries: [['main', 'main.js']],
  }),
  // Names that are read of an external.
  members: (list) => ({
    config: { external_modules: ['external'] },
    files: { 'main.js': [imported('external', list.map((name) => [name, name])), ...list.map((name) => run(call('use', name)))] },
    entries: [['main', 'main.js']],
  }),
  // Specifiers of externals.
  specifiers: (list) => ({
    config: { external_modules: list },
    files: { 'main.js': list.flatMap((name, at) => [imported(name, [['x', `x${at}`]]), run(call(`x${at}`))]) },
    entries: [['main', 'main.js']],
  }),
  // Names of files.
  files: (list) => ({
    config: {},
    files: {
      ...Object.fromEntries(list.map((name, at) => [name, [exported(constant(`x${at}`, at))]])),
      'main.js': list.flatMap((name, at) => [imported(`./${name}`, [[`x${at}`, `x${at}`]]), run(call('use', `x${at}`))]),
    },
    entries: [['main', 'main.js']],
  }),
  // Specifiers of files, whose names have hashes of their own.
  requests: (list) => ({
    config: {},
    files: {
      ...Object.fromEntries(list.map((name, at) => [`${name.slice(2)}.js`, [exported(constant(`x${at}`, at))]])),
      'main.js': list.flatMap((name, at) => [imported(name, [[`x${at}`, `x${at}`]]), run(call('use', `x${at}`))]),
    },
    entries: [['main', 'main.js']],
  }),
};
// So many entries that import all of so many files, each of which has import.meta.
const with_metas = (entries) => (count) => {
  const own = (name) => member(meta(), name);
  const listed = (name) => [property('url', { type: 'Str', value: name }), property('at', lambda(['n'], [given(binary('n', '+', 'n'))]))];
  return {
    config: {},
    files: {
      ...Object.fromEntries(upTo(count, (at) => [`m${at}.js`, [
        exported(declared(`f${at}`, ['n'], [given(array(['n', own('url')]))])), run(call(own('at'), at)),
      ]])),
      ...Object.fromEntries(upTo(entries, (at) => [`e${at}.js`, main_of_all(count)])),
    },
    entries: upTo(entries, (at) => [`bundle${at}`, `e${at}.js`]),
    meta: Object.fromEntries(upTo(count, (at) => [`m${at}.js`, listed(`m${at}`)])),
  };
};

// The same names, at the state of the table of labels.
of_names.labels = of_names.members;
of_names.owners = of_names.specifiers;
// Names of entries, and of their files.
const empty_entries = (list, nameOf, fileOf) => ({
  config: {},
  files: Object.fromEntries(list.map((name, at) => [fileOf(name, at), []])),
  entries: list.map((name, at) => [nameOf(name, at), fileOf(name, at)]),
});
of_names.bundles = (list) => empty_entries(list, (name) => name, (name, at) => `e${at}.js`);
of_names.entry_files = (list) => empty_entries(list, (name, at) => `e${at}`, (name) => name);

const of_kind = (kind) => ({
  files: 'file', entry_files: 'file', requests: 'specifier', labels: 'label', owners: 'owner',
})[kind] ?? 'text';
const with_names = (kind, which) => (count) => of_names[kind](names(of_kind(kind), count)[which]);

/** The shapes: from which size on each is timed, what it is, and how it is made. */
export const shapes = {
  chain: [2500, 'each module imports the one before', (count) => graph(count,
    (at) => (at === 0 ? module_of(at, [], 0) : module_of(at, [takes(at - 1)], call('prev', 1))), main_of_last(count))],
  ring: [500, 'one cycle', (count) => graph(count,
    (at) => module_of(at, [takes((at + 1) % count)], call('prev', binary('n', '-', 1))), main_of_last(count))],
  stars: [500, 'each module stars the next, and the main one imports all names from the first', (count) => graph(count,
    (at) => module_of(at, at + 1 < count ? [starred(file(at + 1))] : [], 0),
    [imported(file(0), upTo(count, (at) => [`f${at}`, `f${at}`])), used(count)])],
  leaves: [1000, 'the main module stars all', (count) => graph(count,
    (at) => module_of(at, [], 0), upTo(count, (at) => starred(file(at))))],
  wide: [2500, 'the main module imports from all', (count) => graph(count, (at) => module_of(at, [], 0), main_of_all(count))],
  random: [1000, 'each module imports up to five earlier ones', (count) => randomly(count, 1)],
  large: [485, 'the same of modules of ten thousand bytes each', (count) => randomly(count, 6)],
  namespaces: [1000, 'each module reads statically from the one before, and the main one uses all objects', (count) => graph(count,
    (at) => (at === 0 ? module_of(at, [], 0) : module_of(at, [whole(file(at - 1), 'prev')], call(member('prev', `f${at - 1}`), 1))),
    [...upTo(count, (at) => whole(file(at), `n${at}`)), all(upTo(count, (at) => [id(`n${at}`), call(member(`n${at}`, `f${at}`), 1)]).flat())])],
  commonjs: [2500, 'each module requires the one before, and the main one imports a name of each', (count) => graph(count,
    (at) => [
      ...(at > 0 ? [constant('prev', call('require', { type: 'Str', value: file(at - 1) }))] : []),
      constant('local', object([property('a', at)])),
      run(assigned(member('exports', `f${at}`), lambda(['n'], [given(binary('n', '+', member('local', 'a')))]))),
    ], main_of_all(count), { require: true })],
  one: [20000, 'one module of so many statements', (count) => alone(upTo(count, (at) => (at % 3
    ? constant(`v${at}`, array([`v${at - 1}`, `g${at}`, object([property('k', `v${at - 1}`)])]))
    : declared(`v${at}`, ['a'], [variables('let', ['b', binary('a', '+', at)]), given('b')]))))],
  clash: [5000, 'one module of so many names and functions, whose inner names clash with them', (count) => alone([
    variables('const', ...upTo(count, (at) => [`x${at}`, at])),
    ...upTo(count, (at) => declared(`h${at}`, ['x', 'z'], [
      variables('let', ['x1', array([`x${at}`, 'z'])]), given(arrow(['y'], binary(binary('x', '+', 'x1'), '+', 'y'))),
    ])),
  ])],
  back: [2500, 'a back ring: two modules, item i of each needs item i + 1 of the other', (count) => over_a_border(count, 1)],
  calls: [2500, 'two modules of functions that call on over the border and back', (count) => over_a_border(count, 0)],
  setup: [1000, 'so many statements that set up a prototype, and so many readers, in a cycle of modules', (count) => ({
    config: {},
    files: {
      'a.js': [
        imported('./b', [['r0', 'r0']]),
        exported(declared('X', [], [])),
        ...upTo(count, (at) => run(assigned(member(member('X', 'prototype'), `m${at}`), lambda([], [given('r0')])))),
      ],
      'b.js': [imported('./a', [['X', 'X']]), ...upTo(count, (at) => exported(declared(`r${at}`, [], [given(made('X'))])))],
      'main.js': [imported('./b', [['r0', 'r0']]), all(['r0'])],
    },
    entries: [['main', 'main.js']],
  })],
  tinychain: [5000, 'a chain of empty modules', (count) => empties(count, (at) => ahead(count, at))],
  tinypairs: [2500, 'a chain of so many pairs of empty modules that import each other', (count) => empties(2 * count,
    (at) => (at % 2 === 0 ? [at + 1, ...ahead(2 * count, at, 2)] : [at - 1]))],
  zigzag: [1000, 'a chain of empty modules, each second of which imports the one three before', (count) => empties(count,
    (at) => [...ahead(count, at), ...(at % 2 === 1 && at >= 3 ? [at - 3] : [])])],
  ringcross: [4000, 'a ring of empty modules, each of which imports another one anywhere', (count) => {
    const anywhere = random(12345);
    return empties(count, (at) => [(at + 1) % count, anywhere(count)]);
  }],
  starfar: [1000, 'each module stars the next, and asks it for a name of its own that the last one has', (count) => graph(count,
    (at) => (at + 1 < count ? [starred(file(at + 1)), imported(file(at + 1), [[`x${at}`, 'y']]), run(call('use', 'y'))]
      : upTo(count, (which) => exported(constant(`x${which}`, which)))),
    [bare(file(0))])],
  filesexternals: [500, 'so many modules, each with an external of its own', (count) => graph(count,
    (at) => [imported(outside(at), [['x', 'x']]), run(call('use', 'x'))], upTo(count, (at) => bare(file(at))),
    { external_modules: upTo(count, outside) })],
  externalstars: [500, 'each module stars an external of its own and the next module', (count) => graph(count,
    (at) => [starred(outside(at)), ...(at + 1 < count ? [starred(file(at + 1))] : [])], [starred(file(0))],
    { external_modules: upTo(count, outside) })],
  entriesempty: [100, 'so many entries over one chain of so many empty modules', (count) => {
    const { files } = empties(count, (at) => ahead(count, at));
    delete files['main.js'];
    return {
      config: {},
      files: { ...files, ...Object.fromEntries(upTo(count, (at) => [`e${at}.js`, [bare(file(0))]])) },
      entries: upTo(count, (at) => [`bundle${at}`, `e${at}.js`]),
    };
  }],
  entries: [50, 'so many entries over twice as many files, each with import.meta', (count) => ({
    config: {},
    files: Object.fromEntries(upTo(count, (at) => [
      [`e${at}.js`, [imported(`./m${at}`, [['f', 'f']]), run(call('f', member(meta(), 'url')))]],
      [`m${at}.js`, [exported(declared('f', ['n'], [given(array(['n', member(meta(), 'url')]))]))]],
    ]).flat()),
    entries: upTo(count, (at) => [`bundle${at}`, `e${at}.js`]),
    meta: Object.fromEntries(upTo(count, (at) => ['e', 'm'].map((kind) => [`${kind}${at}.js`, [property('url', { type: 'Str', value: `${kind}${at}` })]])).flat()),
  })],
  metas_1: [250, 'one entry over so many files, each with import.meta', with_metas(1)],
  metas_10: [250, 'ten entries, each over all of so many files with import.meta', with_metas(10)],
  metas_100: [250, 'a hundred entries, each over all of so many files with import.meta', with_metas(100)],
  ...Object.fromEntries(Object.keys(of_names).flatMap((kind) => ['apart', 'alike'].map((which) => [
    `${kind}_${which}`, [1250, `${kind} that strangers chose, with hashes ${which}`, with_names(kind, which)],
  ]))),
};

/** The text of the document of a shape at a size. */
export function documentOf(shape, count) {
  const made = shapes[shape][2](count);
  const files = Object.fromEntries(Object.entries(made.files).map(([name, body]) => [name, { type: 'Module', body }]));
  return JSON.stringify({ ...made, files });
}

if (import.meta.filename === argv[1]) {
  const [, , shape, count] = argv;
  if (!Object.hasOwn(shapes, shape ?? '')) {
    console.error(`a shape and a size are wanted; the shapes are ${Object.keys(shapes).join(', ')}`);
    process.exit(2);
  }
  process.stdout.write(documentOf(shape, Number(count || shapes[shape][0])));
}
