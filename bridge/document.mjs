// Entry files on disk to the program's document (docs/DOCUMENT.md): it follows what they import.
//
// The program's resolver knows one folder: `./r` leads to the file `r` from wherever it is asked. So each file is called by
// its path from the folder that holds them all, and each specifier that leads to a file is written anew, as that name.
import fs from 'node:fs';
import path from 'node:path';
import { pathToFileURL } from 'node:url';
import { Failure, failureAt } from './failure.mjs';
import { moduleOf, placeOf } from './read.mjs';
import { bindsRequire } from './require.mjs';

const endings = ['', '.js', '.mjs', '/index.js'];
const onDisk = (specifier) => /^(\.{1,2}$|\.{0,2}\/)/.test(specifier);
// How deep the program's reader goes, and where a module stands in the document.
const deepest = 127;
const depthOfModules = 2;

/**
 * The text of a document of these entries and all that they import, the paths of its files by their names, and the cycles
 * of its files, each as the paths along it. `options` has `require`, `iife`, `order`, and `external`, a list of specifiers;
 * `progress` is told what is read.
 */
export function documentOf(entries, options, progress) {
  const roots = entries.map(existing);
  const { files, links, externals } = followed(roots, options, progress);
  const names = namesOf([...files.keys()]);
  for (const { source, target } of links) {
    source.value = `./${names.get(target)}`;
    source.raw = null;
  }
  const byName = (value) => Object.fromEntries([...files].map(([file, module]) => [names.get(file), value(file, module)]));
  const document = {
    config: {
      require: options.require,
      module: options.iife ? 'Iife' : 'Es',
      external_modules: [...externals],
      order: options.order === 'needs' ? 'Needs' : 'Standard',
    },
    files: byName((file, module) => module),
    entries: bundleNames(entries).map((name, at) => [name, names.get(roots[at])]),
    meta: byName(importMeta),
  };
  const paths = new Map([...names].map(([file, name]) => [name, shown(file)]));
  const cycles = cyclesOf(roots, links).map((cycle) => cycle.map(shown));
  return { text: JSON.stringify(document), paths, cycles };
}

// The cycles that files form, each once, as it is closed on the way that Node takes through them from these files on: a file,
// the one that it requests and that is not done yet, and those between the two on that way, down to the file itself.
function cyclesOf(roots, links) {
  const requests = new Map();
  for (const { file, target } of links) requests.set(file, [...(requests.get(file) ?? []), target]);
  const cycles = new Map();
  const begun = new Set();
  for (const root of roots) {
    if (begun.has(root)) continue;
    // The files that are open, each with its requests that are left.
    const open = [];
    const places = new Map();
    const enter = (file) => {
      begun.add(file);
      places.set(file, open.length);
      open.push({ file, left: [...(requests.get(file) ?? [])].reverse() });
    };
    enter(root);
    while (open.length > 0) {
      const { file, left } = open.at(-1);
      const target = left.pop();
      if (target === undefined) {
        places.delete(open.pop().file);
      } else if (!begun.has(target)) {
        enter(target);
      } else if (places.has(target)) {
        cycles.set(`${file}\0${target}`, [file, ...open.slice(places.get(target)).map((it) => it.file)]);
      }
    }
  }
  return [...cycles.values()];
}

// The modules of these files and of all that they import, the links between them, and the specifiers that lead to none.
function followed(roots, options, progress) {
  const found = new Set(roots);
  const files = new Map();
  const links = [];
  const externals = new Set(options.external);
  // What is found on the way comes behind.
  for (const file of found) {
    progress(`reading ${files.size + 1} of ${found.size}: ${shown(file)}`);
    const module = read(file);
    files.set(file, module);
    for (const source of requestsOf(module, options.require)) {
      if (externals.has(source.value)) continue;
      if (onDisk(source.value)) {
        const target = resolved(file, source);
        links.push({ file, source, target });
        found.add(target);
      } else {
        externals.add(source.value);
      }
    }
  }
  return { files, links, externals };
}

/** A path as a user reads it: from the folder that the command runs in, where that holds it. */
export function shown(file) {
  const near = path.relative('', file);
  return near.startsWith('..') ? file : near;
}

// The path of an entry.
function existing(entry) {
  if (!isFile(entry)) throw new Failure(`${entry}: there is no such file`);
  return fs.realpathSync(entry);
}

const isFile = (file) => fs.statSync(file, { throwIfNoEntry: false })?.isFile() ?? false;

// The form of the module in a file.
function read(file) {
  const module = moduleOf(fs.readFileSync(file, 'utf8'), shown(file));
  if (depthOf(module) + depthOfModules > deepest) {
    throw new Failure(`${shown(file)}: its tree is deeper than the program reads, ${deepest} levels of JSON`);
  }
  return module;
}

const depthOf = (value) => (value === null || typeof value !== 'object' ? 0
  : 1 + Object.values(value).reduce((deep, part) => Math.max(deep, depthOf(part)), 0));

// The file that a specifier leads to from a file.
function resolved(file, source) {
  const from = path.resolve(path.dirname(file), source.value);
  const target = endings.map((ending) => from + ending).find(isFile);
  if (!target) {
    throw failureAt(shown(file), placeOf(source), `there is no file '${source.value}', nor with ${endings.slice(1).join(', ')} behind it`);
  }
  return fs.realpathSync(target);
}

// The specifiers that a module imports, exports from and, with `require`, requires. A module in which something is called
// `require` keeps its calls of it as they are.
function requestsOf(module, withRequire) {
  const imported = [];
  const required = [];
  let isBound = false;
  const visit = (form) => {
    if (form === null || typeof form !== 'object') return;
    if (form.src?.type === 'Str') imported.push(form.src);
    if (isRequire(form)) required.push(form.args[0].expr);
    isBound ||= bindsRequire(form);
    Object.values(form).forEach(visit);
  };
  visit(module);
  return withRequire && !isBound ? [...imported, ...required] : imported;
}

const isRequire = ({ type, callee, args }) => type === 'CallExpr' && callee.type === 'Ident' && callee.sym === 'require'
  && args.length === 1 && !args[0].spread && args[0].expr.type === 'Str';

// What files are called, each by its path from the folder that holds them all. A name ends in .js, as the program's resolver
// has it; those that end so by themselves come first, so that no other takes their name.
function namesOf(files) {
  const folder = commonFolder(files);
  const isScript = (file) => file.endsWith('.js');
  const names = new Map();
  const taken = new Set();
  for (const file of [...files.filter(isScript), ...files.filter((it) => !isScript(it))]) {
    let name = path.relative(folder, file);
    while (!isScript(name) || taken.has(name)) name += '.js';
    taken.add(name);
    names.set(file, name);
  }
  return names;
}

// The innermost folder that holds all these files.
const commonFolder = (files) => files.map((file) => path.dirname(file)).reduce((folder, other) => {
  while (!`${other}/`.startsWith(folder === '/' ? folder : `${folder}/`)) folder = path.dirname(folder);
  return folder;
});

// What the bundles of entries are called: their paths from the folder that holds the entries, without their endings.
function bundleNames(entries) {
  const files = entries.map((entry) => path.resolve(entry));
  const folder = commonFolder(files);
  return files.map((file) => path.relative(folder, file).replace(/\.m?js$/, ''));
}

// The properties of a module's `import.meta`, as Node has them.
const importMeta = (file) => Object.entries({
  dirname: path.dirname(file), filename: file, url: pathToFileURL(file).href,
}).map(([key, value]) => ({
  type: 'KeyValueProp', key: { type: 'IdentName', sym: key }, value: { type: 'Str', value, raw: null },
}));
