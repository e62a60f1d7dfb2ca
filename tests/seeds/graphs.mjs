// Small random graphs of modules that Node can run, and that say what they do: they call `log`.
//
// graph(seed) gives { files, entries, config, isCyclic, orderOf }: `files` by their names for Node, each specifier is
// `./NAME`; whether modules reach themselves; and their numbers in Node's order from an entry on. What the linker does not
// promise is left out: what `this` is in `ns.f()`, names of functions, values of a namespace object that change once it
// was made, when CommonJS modules run, the default of a CommonJS module; no star, re-export or namespace object leads to a
// module of the same cycle, and no class reads itself through an import while it is made. All that is logged has to be
// logged by the bundle, in the same order: so modules that reach each other stand together in Node's order, as in a
// bundle, and have their functions first, these use functions alone, and their other statements use what stands before
// them in that order.
//
// graph(seed, true) has none of these last bounds: modules of a cycle stand apart, their functions stand anywhere and read
// values, and statements read what Node has not set up, so that some end in an error. There the order of a bundle may be
// another than Node's. In a graph with a cycle each own statement then holds a number, its mark, which tells where it
// stands; and there are no CommonJS modules, since it would show when they run.
//
// graph(seed, true, true) is for bundles in the standard's order: no statement holds a mark, and an object of a namespace may
// lead to a module of the same cycle. `holdsItself` tells of graphs in which such an object is taken as a value: a bundle
// makes it once, behind the items of its module, so what it does may differ then.

// A mark: the module's number, and from 1 on the place of the statement in it.
const MARK = 'MARK', PLACES = 1 << 12;
/** The module and the place in it that a mark tells. */
export const marked = (mark) => ({ module: Math.floor(mark / PLACES), place: mark % PLACES });

export function graph(seed, isFree = false, isStandard = false) {
  let state = (seed * 2654435761 + 12345) >>> 0;
  const random = (below) => {
    state ^= state << 13; state >>>= 0; state ^= state >>> 17; state ^= state << 5; state >>>= 0;
    return state % below;
  };
  const chance = (percent) => random(100) < percent;
  const one = (list) => list[random(list.length)];
  const some = (list, count) => { const rest = [...list]; return Array.from({ length: Math.min(count, rest.length) }, () => rest.splice(random(rest.length), 1)[0]); };

  // Names are few, so that they clash; some are taken by the linker, some are words that it renames.
  const SYMBOLS = ['x', 'y', 'x1', 'load', 'mod', 'int', 'f', 'g', 'console', '__default', '$a'];
  const count = 2 + random(5);
  const modules = Array.from({ length: count }, (_, i) => ({ i, file: i === 0 ? 'main.js' : `m${i}.js`, own: [], edges: [], lines: [] }));
  const commons = Array.from({ length: chance(30) ? 1 + random(2) : 0 }, (_, i) => ({ file: `c${i}.cjs`, names: some(['x', 'y', 'mod', 'q'], 1 + random(3)) }));

  // What each module declares, and under which names it exports that.
  for (const m of modules) {
    m.changes = chance(15);
    const symbols = some(SYMBOLS, 1 + random(4));
    m.own = symbols.map((symbol) => ({ symbol, kind: one(['const', 'let', 'var', 'function', 'function', 'class']), as: null, inline: chance(50) }));
    for (const d of m.own) if (chance(70)) d.as = d.inline ? d.symbol : one([d.symbol, 'p', 'q', 'r', 'default']);
    const taken = new Set();
    for (const d of m.own) { if (d.as && taken.has(d.as)) d.as = null; if (d.as) taken.add(d.as); if (!d.as) d.inline = false; }
    if (!taken.has('default') && chance(40)) m.fallback = one(['expression', 'function', 'class']);
  }
  // Who imports whom: later ones, and now and then one before, so that there is a cycle.
  for (const m of modules) {
    const later = some(modules.slice(m.i + 1), 1 + random(3));
    const back = chance(20) ? some(modules.slice(0, m.i + 1), 1) : [];
    m.edges = [...later, ...back].map((to) => ({ to, form: null }));
    if (chance(30)) m.edges.reverse();
    m.commons = some(commons, random(2));
  }
  // Node's order, and which modules reach each other.
  const place = new Map();
  const visit = (m, seen) => { if (seen.has(m)) return; seen.add(m); m.edges.forEach((e) => visit(e.to, seen)); place.set(m, place.size); };
  const reached = (m) => { const seen = new Set(), go = (n) => n.edges.forEach((e) => { if (!seen.has(e.to)) { seen.add(e.to); go(e.to); } }); go(m); return seen; };
  const reach = new Map();
  const arrange = () => { place.clear(); visit(modules[0], new Set()); modules.forEach((m) => reach.set(m, reached(m))); };
  const together = (m, n) => m === n || (reach.get(m).has(n) && reach.get(n).has(m));
  const isCyclic = (m) => reach.get(m).has(m);
  arrange();
  const listed = [...place.keys()];
  if (!isFree && listed.some((m, at) => listed.some((n, behind) => behind > at + 1 && together(m, n) && !together(m, listed[behind - 1])))) {
    modules.forEach((m) => { m.edges = m.edges.filter((e) => e.to.i > m.i); });
    arrange();
  }

  const isMixed = isFree && modules.some(isCyclic), isMarked = isMixed && !isStandard;
  let holdsItself = false;
  if (isMixed) modules.forEach((m) => { m.commons = []; });
  const own = (value) => (isMarked ? `(${MARK}, ${value})` : value);

  // A name that a module exports: what it is, or null where it is none or two.
  const given = (m, name, seen = new Set()) => {
    const key = `${m.i} ${name}`;
    if (seen.has(key)) return [];
    seen.add(key);
    const own = m.own.find((d) => d.as === name);
    if (own) return [{ m, d: own }];
    if (name === 'default') return m.fallback ? [{ m, d: { kind: m.fallback === 'expression' ? 'const' : m.fallback, symbol: 'default' } }] : [];
    const through = m.through?.find((t) => t.as === name);
    if (through?.isWhole) return [{ m: through.to, d: { kind: 'whole', symbol: '*' } }];
    if (through) return given(through.to, through.name, seen);
    return (m.stars ?? []).flatMap((s) => given(s, name, seen));
  };
  const names = (m, seen = new Set()) => {
    if (seen.has(m)) return new Set();
    seen.add(m);
    return new Set([...m.own.filter((d) => d.as).map((d) => d.as), ...(m.fallback ? ['default'] : []), ...(m.through ?? []).map((t) => t.as),
      ...(m.stars ?? []).flatMap((s) => [...names(s, seen)].filter((n) => n !== 'default'))]);
  };
  const linked = (m) => [...names(m)].flatMap((name) => {
    const all = given(m, name);
    return all.length && all.every((g) => g.m === all[0].m && g.d.symbol === all[0].d.symbol) ? [{ name, ...all[0] }] : [];
  });
  // Whether an object of all its names may be used: no value of them changes.
  const isFixed = (m) => linked(m).every((l) => !l.m.changes);

  // Whether it gives no name twice. Through a second star Node's namespace objects have such a name, which ECMA-262 leaves out.
  const isPlain = (m) => [...names(m)].every((name) => linked(m).some((l) => l.name === name));

  // The last module first, so that what is exported is known, but along a cycle.
  for (const m of [...modules].reverse()) {
    const bound = new Set(m.own.map((d) => d.symbol));
    const fresh = (name) => { let n = ['default', 'int'].includes(name) ? `v${random(9)}` : name; while (bound.has(n)) n += random(10); bound.add(n); return n; };
    m.through = []; m.stars = []; m.uses = []; m.head = [];
    for (const { to } of m.edges) {
      const from = `'./${to.file}'`;
      // Of a module that reaches this one and stands behind it in Node's order, functions alone.
      const early = together(m, to) && !(place.get(to) < place.get(m));
      const all = early ? to.own.filter((d) => d.as && (isFree || d.kind === 'function')).map((d) => ({ name: d.as, m: to, d }))
        : linked(to).filter((l) => isFree || !together(m, l.m) || l.d.kind === 'function' || place.get(l.m) < place.get(m));
      const forms = ['named', 'named', 'bare'];
      if (!early && !together(m, to)) forms.push('through', ...(isPlain(to) ? ['star'] : []), ...(isFixed(to) ? ['whole', 'whole', 'nested'] : ['static']));
      else if (isStandard) forms.push(isFixed(to) && chance(30) ? 'whole' : 'static');
      const form = one(forms);
      switch (form) {
        case 'named': {
          const taken = some(all, 1 + random(3)).map((l) => ({ ...l, local: fresh(chance(50) ? l.name : one(SYMBOLS)) }));
          const main = taken.find((t) => t.name === 'default' && chance(60)), rest = taken.filter((t) => t !== main);
          const clause = [main && main.local, rest.length && `{ ${rest.map((t) => (t.name === t.local ? t.name : `${t.name} as ${t.local}`)).join(', ')} }`].filter(Boolean).join(', ');
          m.head.push(clause ? `import ${clause} from ${from};` : `import ${from};`);
          m.uses.push(...taken.map((t) => ({ text: t.local, kind: t.d.kind, d: t.d, isLate: early })));
          break;
        }
        case 'bare': m.head.push(`import ${from};`); break;
        case 'star': m.stars.push(to); m.head.push(`export * from ${from};`); break;
        case 'through': {
          const taken = some(all, 1 + random(2)).map((l) => ({ ...l, as: one([l.name, 'p', 'q', 's']) })).filter((t) => !names(m).has(t.as) || m.stars.length === 0 && !m.own.some((d) => d.as === t.as) && !m.through.some((o) => o.as === t.as));
          const once = taken.filter((t, i) => taken.findIndex((o) => o.as === t.as) === i && !(t.as === 'default' && m.fallback));
          once.forEach((t) => m.through.push({ as: t.as, to, name: t.name }));
          m.head.push(`export { ${once.map((t) => (t.name === t.as ? t.name : `${t.name} as ${t.as}`)).join(', ')} } from ${from};`);
          break;
        }
        case 'nested': {
          const as = one(['n', 'ns', 'q']);
          if (names(m).has(as)) { m.head.push(`import ${from};`); break; }
          m.through.push({ as, to, isWhole: true });
          m.head.push(`export * as ${as} from ${from};`);
          break;
        }
        default: {
          const local = fresh(one(['ns', 'mod', 'x']));
          m.head.push(`import * as ${local} from ${from};`);
          for (const l of some(all, 2).filter((l) => l.name !== 'default')) {
            m.uses.push({ text: `${local}.${l.name}`, kind: l.d.kind, d: l.d, isLate: early });
            if (l.d.kind === 'whole') m.uses.push(...some(linked(l.m), 2).filter((k) => k.name !== 'default').map((k) => ({ text: `${local}.${l.name}.${k.name}`, kind: k.d.kind })));
          }
          if (together(m, to) && form === 'static') break;
          holdsItself ||= together(m, to);
          if (isFixed(to)) m.uses.push({ text: local, kind: 'whole' });
        }
      }
    }
    for (const c of m.commons) {
      const taken = some(c.names, 1 + random(2)).map((name) => ({ name, local: fresh(name) }));
      m.head.push(`import { ${taken.map((t) => (t.name === t.local ? t.name : `${t.name} as ${t.local}`)).join(', ')} } from './${c.file}';`);
      m.uses.push(...taken.map((t) => ({ text: t.local, kind: 'const' })));
    }
    write(m);
  }

  // The text of a module: its functions first where it is in a cycle.
  function write(m) {
    const cyclic = isCyclic(m), functions = [], rest = [], seen = [];
    const callable = (u) => u.kind === 'function';
    const value = (self) => {
      const ready = [...m.uses.filter((u) => !u.isLate || callable(u) || (isFree && u.d !== self && chance(20))), ...seen];
      const shown = ready.length && chance(75) ? one(ready) : null;
      if (!shown) return one([`${random(9)}`, `'${one(['s', 't'])}${m.i}'`, `[${random(5)}]`]);
      if (callable(shown)) return `${shown.text}(${random(3)})`;
      if (shown.kind === 'class') return one([`new ${shown.text}().k`, `${shown.text}.s`]);
      if (shown.kind === 'whole') return one([`Object.keys(${shown.text}).join()`, `typeof ${shown.text}`, `Object.values(${shown.text}).length`]);
      return one([shown.text, `[${shown.text}]`, `\`\${${shown.text}}\``]);
    };
    // In a function: names inside clash with those outside.
    const body = (d) => {
      const callee = one([...m.uses, ...m.own.filter((o) => o !== d).map((o) => ({ text: o.symbol, kind: o.kind }))].filter((u) => callable(u) && u.text !== d?.symbol).concat([null]));
      const reads = cyclic && !isFree ? [] : [...m.uses, ...(isFree ? m.own.map((o) => ({ text: o.symbol, kind: o.kind })) : [])]
        .filter((u) => u.kind === 'const' || u.kind === 'var' || u.kind === 'let');
      const inner = one(['x', 'y', 'mod', 'x1', 'z']), read = reads.length && chance(60) ? one(reads).text : null;
      const clash = read?.split('.')[0] === inner || callee?.text.split('.')[0] === inner || inner === 'n';
      const head = clash ? '' : one([`const ${inner} = n + 1;`, `let ${inner} = [n]; for (const w of ${inner}) { log(w, n); }`, `var ${inner} = n; { let w = ${inner}; w++; }`, '']);
      const call = callee && !callee.text.includes('.') ? `n > 0 ? ${callee.text}(n - 1) : ` : '';
      return `${isMarked ? `${MARK}; ` : ''}${head} return ${call}${read ? `[${read}, ${clash || !head ? 'n' : inner}]` : clash || !head ? `n + ${m.i}` : inner};`;
    };
    const listed = [];
    for (const d of m.own) {
      const front = d.inline && d.as ? 'export ' : '';
      if (!d.inline && d.as) listed.push(d.as === d.symbol ? d.symbol : `${d.symbol} as ${d.as}`);
      if (d.kind === 'function') functions.push(`${front}function ${d.symbol}(n${chance(20) ? ', o = () => n' : ''}) { ${body(d)} }`);
      else if (d.kind === 'class') rest.push(() => `${front}class ${d.symbol} { ${isMarked ? `${MARK}() {} ` : ''}static s = ${value(d)}; constructor() { this.k = ${value()}; } }`);
      else rest.push(() => `${front}${d.kind} ${d.symbol} = ${own(value())};`);
    }
    const logged = (values) => `log(${isMarked ? `${MARK}, ` : ''}${values});`;
    const text = [], add = (make, d) => { text.push(make()); if (d && d.kind !== 'function') seen.push({ text: d.symbol, kind: d.kind }); };
    const order = m.own.filter((d) => d.kind !== 'function');
    // Functions are there from the beginning on, where they use nothing that is not.
    const isAnywhere = isFree && chance(70);
    if (!isAnywhere && (cyclic || chance(60))) { text.push(...functions.splice(0)); }
    for (const d of m.own) if (d.kind === 'function' && cyclic) seen.push({ text: d.symbol, kind: 'function' });
    order.forEach((d, at) => {
      add(rest[at], d);
      if (chance(50)) text.push(logged(`'${m.i}', ${value()}`));
      if (m.changes && (d.kind === 'let' || d.kind === 'var') && chance(60)) text.push(`${d.symbol} = ${own(value())};`);
    });
    if (isAnywhere) functions.forEach((line) => text.splice(random(text.length + 1), 0, line));
    else text.push(...functions);
    for (const d of m.own) if (d.kind === 'function' && !cyclic) seen.push({ text: d.symbol, kind: 'function' });
    if (m.fallback === 'expression') text.push(`export default ${own(value())};`);
    if (m.fallback === 'function') (cyclic && !isAnywhere ? text.unshift.bind(text) : text.push.bind(text))(`export default function (n) { ${body(null)} }`);
    if (m.fallback === 'class') text.push(`export default class { ${isMarked ? `${MARK}() {} ` : ''}static s = ${value()}; constructor() { this.k = 1; } }`);
    text.push(logged(`'end ${m.i}', ${value()}, ${value()}`));
    if ((isFree || !cyclic) && chance(10)) text.push(logged('typeof import.meta, import.meta.k'));
    if (listed.length) text.splice(random(text.length), 0, `export { ${listed.join(', ')} };`);
    const whole = text.map((line, at) => line.replaceAll(MARK, `0x${(m.i * PLACES + at + 1).toString(16)}`));
    m.text = [...m.head, ...whole].join('\n') + '\n';
  }

  const files = Object.fromEntries(modules.filter((m) => place.has(m)).map((m) => [m.file, m.text]));
  commons.forEach((c, i) => {
    const inner = commons[i + 1] && chance(50) ? `const inner = require('./${commons[i + 1].file}');\n` : '';
    files[c.file] = inner + c.names.map((name, at) => `exports.${name} = ${inner && chance(50) ? `Object.keys(inner).length` : `'${c.file}${at}'`};`).join('\n') + '\n';
  });
  // From another entry a cycle has another order.
  const second = modules.find((m) => m.i > 0 && place.has(m) && (isFree || ![m, ...reach.get(m)].some(isCyclic)));
  const entries = second && chance(20) ? ['main.js', second.file] : ['main.js'];
  // Node's order from an entry on.
  const orderOf = (entry) => {
    place.clear();
    visit(modules.find((m) => m.file === entry), new Set());
    return [...place.keys()].map((m) => m.i);
  };
  return {
    files, entries, config: { require: true, ...(chance(20) ? { module: 'Iife' } : {}) }, isCyclic: modules.some(isCyclic), holdsItself, orderOf,
  };
}
