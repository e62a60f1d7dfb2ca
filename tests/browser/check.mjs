// The page of examples/page in Chromium: unbundled, as one ES module, and as one script.
// Usage: node check.mjs PROGRAM PACKAGES WANTED [PICTURES]: WANTED is how many checks there are to be; PICTURES is a folder for
// what is drawn.
import { spawnSync } from 'node:child_process';
import fs from 'node:fs';
import { createRequire } from 'node:module';
import os from 'node:os';
import path from 'node:path';
import { fileURLToPath } from 'node:url';
import { Chromium } from './chromium.mjs';

const { SourceMapConsumer } = createRequire(import.meta.url)('source-map');
const [program, packages, wanted, pictures] = process.argv.slice(2);
const example = fileURLToPath(new URL('../../examples/page', import.meta.url));
const SIZE = { width: 1250, height: 714 };

let passed = 0;
let failed = 0;
function tell(name, fault) {
  if (fault === null) {
    passed += 1;
  } else {
    failed += 1;
    console.log(`browser: ${name}: ${fault}`);
  }
}

// The pages: what the browser is sent to, and the bundle that it is made of.
const UNBUNDLED = { name: 'the modules', html: 'modules.html', main: 'src/main.js' };
const ES_MODULE = { name: 'the ES module', html: 'index.html', main: 'out/page.mjs' };
const SCRIPT = { name: 'the script', html: 'script.html', main: 'out/page.js' };
const PAGES = [UNBUNDLED, ES_MODULE, SCRIPT];

// What is drawn: the words of the address, and of each view what is done before it (a click in the middle of an element or at
// a part of its width, or a key) and texts that stand in the page then.
const VISITS = [
  {
    words: '',
    views: [
      { name: 'at first', acts: [], texts: ['1 June 2026', 'Mars: distance from the Earth, astronomical units', 'Halley'] },
      {
        name: 'after a click on a point, and keys',
        acts: [{ click: '.laws .dot:nth-of-type(7) circle' }, { press: 'ArrowRight' }, { press: 'ArrowRight' }, { press: 'PageUp' }],
        texts: ['31 July 2027', 'Jupiter: distance from the Earth, astronomical units'],
      },
      {
        name: 'after a click on a name, and on the slider',
        acts: [{ click: '.scene text:nth-of-type(6)' }, { click: 'input', at: 0.8 }],
        texts: ['2030', 'Saturn: distance from the Earth'],
      },
    ],
  },
  {
    words: '?body=Earth&unit=light&day=1986-02-09',
    views: [{ name: 'by words of the address', acts: [], texts: ['9 February 1986', 'Earth: distance from the Sun, minutes of light'] }],
  },
];

// What is thrown: the words of the address that lead to it, the line that throws, and files that the call goes through.
const THROWS = [
  {
    words: '?visitors',
    message: 'RangeError: ʻOumuamua (eccentricity 1.201) does not come back',
    line: ['src/kepler.js', 'throw new RangeError('],
    through: ['src/orbit.js', 'src/scene.js', 'rxjs/dist/esm/internal/observable/combineLatest.js'],
  },
  {
    words: '?day=soon',
    message: 'TypeError: no day is written soon',
    line: ['src/days.js', 'throw new TypeError('],
    through: ['rxjs/dist/esm/internal/operators/map.js', 'src/main.js'],
  },
  {
    words: '?unit=parsec',
    message: 'TypeError: no unit is named parsec',
    line: ['src/units.js', 'throw new TypeError('],
    through: ['src/distances.js', 'd3-array/src/max.js', 'src/main.js'],
  },
];

async function drawn(browser, { acts }) {
  for (const { click, at = 0.5, press } of acts) {
    if (press) {
      await browser.press(press);
    } else {
      const { x, y, width, height } = await browser.evaluate(`document.querySelector('${click}').getBoundingClientRect().toJSON()`);
      await browser.click({ x: x + at * width, y: y + height / 2 });
    }
  }
  const [tree, words, pixels] = await browser.evaluate(`[document.querySelector('#page')].flatMap((page) =>
    [page.outerHTML, page.textContent, page.querySelector('canvas').toDataURL()])`);
  return { tree, words, pixels, picture: await browser.picture() };
}
const otherPart = (view, right) => Object.keys(right).find((part) => view[part] !== right[part]);

// The views of a visit in that page, and what the browser complained of.
async function visited(browser, base, page, { words, views }) {
  await browser.visit(`${base}/${page.html}${words}`);
  const given = [];
  for (const view of views) given.push(await drawn(browser, view));
  const errors = browser.events.filter(({ method }) => /exceptionThrown|entryAdded/.test(method)).map(({ params }) => JSON.stringify(params));
  return { given, error: errors[0] ?? null };
}

async function checkViews(browser, base) {
  const seen = [];
  for (const visit of VISITS) {
    const right = await visited(browser, base, UNBUNDLED, visit);
    tell(`errors of ${UNBUNDLED.name}${visit.words}`, right.error);
    visit.views.forEach(({ name, texts }, i) => {
      const missing = texts.find((text) => !right.given[i].words.includes(text));
      tell(`${name}, ${UNBUNDLED.name}`, missing === undefined ? null : `no text ${missing}`);
    });
    seen.push(...right.given);
    for (const page of [ES_MODULE, SCRIPT]) {
      const { given, error } = await visited(browser, base, page, visit);
      tell(`errors of ${page.name}${visit.words}`, error);
      let others = given.map((view, i) => otherPart(view, right.given[i]));
      // Where pictures alone differ, the browser may have drawn one late: both pages are visited again.
      for (let visits = 1; visits < 4 && others.includes('picture'); visits += 1) {
        const [plain, bundled] = [await visited(browser, base, UNBUNDLED, visit), await visited(browser, base, page, visit)];
        others = others.map((other, i) => (other === 'picture' ? otherPart(bundled.given[i], plain.given[i]) : other));
      }
      others.forEach((other, i) => tell(`${visit.views[i].name}, ${page.name}`, other === undefined ? null : `another ${other}`));
    }
  }
  // Each view is another one, as a whole and in space.
  const all = new Set(seen.flatMap(({ picture, pixels }) => [picture, pixels]));
  tell('the views differ', all.size === 2 * seen.length ? null : `${all.size} pictures`);
  if (pictures) seen.forEach(({ picture }, i) => fs.writeFileSync(path.join(pictures, `${i + 1}.png`), picture, 'base64'));
}

// What an error's stack names: the files and places of its frames from the innermost on.
function framesOf(stack) {
  return [...stack.matchAll(/^ {4}at (?:.*\()?(.+):(\d+):(\d+)\)?$/gm)].map(([, url, line, column]) => ({ url, line: Number(line), column: Number(column) }));
}

// Where a frame lies in the sources: by itself, or by the map of the bundle.
function sourceOf(folder, base, maps, { url, line, column }) {
  const name = url.replace(/\?.*$/, '').slice(base.length + 1);
  const map = maps.get(name);
  if (!map) {
    const file = [name, `${name}.js`].map((one) => path.join(folder, one)).find((one) => fs.existsSync(one));
    return `${fs.realpathSync(file)}:${line}:${column}`;
  }
  const found = map.originalPositionFor({ line, column: column - 1 });
  return found.source && `${fs.realpathSync(path.resolve(folder, path.dirname(name), found.source))}:${found.line}:${found.column + 1}`;
}

async function thrown(browser, base, page, words) {
  await browser.visit(`${base}/${page.html}${words}`);
  const { exceptionDetails } = await browser.heard('Runtime.exceptionThrown');
  const stack = exceptionDetails.exception.description;
  return { message: stack.split('\n')[0], frames: framesOf(stack) };
}

async function checkThrows(browser, base, folder, maps) {
  for (const { words, message, line: [file, text], through } of THROWS) {
    const place = fs.readFileSync(path.join(folder, file), 'utf8').split('\n').findIndex((line) => line.includes(text)) + 1;
    let right;
    for (const page of PAGES) {
      const given = await thrown(browser, base, page, words);
      const sources = given.frames.map((frame) => sourceOf(folder, base, maps, frame));
      // The call that runs a script stands in no source.
      if (page === SCRIPT && sources.at(-1) === null) sources.pop();
      right ??= sources;
      tell(`${words}, ${page.name}: what is thrown`, given.message === message ? null : given.message);
      tell(`${words}, ${page.name}: file and line`, sources[0]?.startsWith(`${path.join(folder, file)}:${place}:`) ? null : `${sources[0]}, not ${file}:${place}`);
      tell(`${words}, ${page.name}: all frames`, wrongFrame(sources, right, through));
    }
  }
}
function wrongFrame(sources, right, through) {
  const other = Array.from({ length: Math.max(sources.length, right.length) }, (_, i) => i).find((i) => sources[i] !== right[i]);
  if (other !== undefined) return `frame ${other + 1} is ${sources[other]}, not ${right[other]}`;
  const missing = through.find((file) => !sources.some((source) => source.includes(`/${file}:`)));
  return missing === undefined ? null : `no frame is of ${missing}`;
}

// What the bundles export, whether the browser has found their maps, and whether their time runs.
async function checkBundles(browser, base) {
  for (const [page, exported] of [[ES_MODULE, `import('/${ES_MODULE.main}')`], [SCRIPT, 'Promise.resolve(Planets)']]) {
    await browser.visit(`${base}/${page.html}`);
    const names = await browser.evaluate(`${exported}.then((page) => Object.keys(page).sort().join())`);
    tell(`exports of ${page.name}`, names === 'bodies,selected$' ? null : names);
    tell(`map of ${page.name}`, mapOf(browser, base, page));
    const texts = await browser.evaluate(`(async () => {
      const [button, date] = ['button', 'output'].map((name) => document.querySelector(name));
      const before = date.textContent;
      button.click();
      const within = button.textContent;
      while (date.textContent === before) await new Promise(requestAnimationFrame);
      button.click();
      return [within, button.textContent].join();
    })()`);
    tell(`time of ${page.name}`, texts === 'Stop,Run' ? null : texts);
  }
}
function mapOf(browser, base, { main }) {
  const script = browser.events.find(({ method, params }) => method === 'Debugger.scriptParsed' && params.url === `${base}/${main}`);
  const link = script?.params.sourceMapURL;
  return link === `${path.basename(main)}.map` ? null : `the browser knows ${link}`;
}

const folder = fs.realpathSync(fs.mkdtempSync(path.join(os.tmpdir(), 'page-')));
const browser = new Chromium();
let server;
try {
  fs.cpSync(example, folder, { recursive: true, filter: (name) => !/\/(out|node_modules)$/.test(name) });
  fs.symlinkSync(path.resolve(packages, 'node_modules'), path.join(folder, 'node_modules'));
  const made = spawnSync(path.join(folder, 'build'), [path.resolve(program)], { encoding: 'utf8', timeout: 300000 });
  if (made.status !== 0) throw new Error(`status ${made.status}: ${made.stderr}`);
  const maps = new Map([ES_MODULE, SCRIPT].map(({ main }) =>
    [main, new SourceMapConsumer(JSON.parse(fs.readFileSync(path.join(folder, `${main}.map`), 'utf8')))]));

  const { serverOf } = await import(path.join(folder, 'serve.mjs'));
  server = serverOf(folder);
  await new Promise((resolve) => server.listen(0, '127.0.0.1', resolve));
  const base = `http://127.0.0.1:${server.address().port}`;
  await browser.open(SIZE.width, SIZE.height);
  await checkViews(browser, base);
  await checkThrows(browser, base, folder, maps);
  await checkBundles(browser, base);
} catch (error) {
  tell('the page', error.stack);
} finally {
  await browser.close();
  server?.closeAllConnections();
  server?.close();
  fs.rmSync(folder, { recursive: true });
}
if (passed + failed !== Number(wanted)) tell('all', `${passed + failed} checks, and tests/counts has ${wanted}`);
console.log(`browser: ${passed} passed, ${failed} failed`);
process.exitCode = failed === 0 ? 0 : 1;
