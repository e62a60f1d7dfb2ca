// Times bundlers on packages: bundlers.sh says how.
//
//   node bench/bundlers.mjs PROGRAM FOLDER
//
// FOLDER has node_modules. Each bundler is handed `export * from` a package, by the field `module` of its package.json.
import { spawnSync } from 'node:child_process';
import fs from 'node:fs';
import os from 'node:os';
import path from 'node:path';

const program = path.resolve(process.argv[2]);
const modules = path.resolve(process.argv[3], 'node_modules');
const runs = 5;
const packages = ['lodash-es/lodash.js', 'd3', 'three', 'rxjs'];

const folder = fs.realpathSync(fs.mkdtempSync(path.join(os.tmpdir(), 'bundlers-')));
process.on('exit', () => fs.rmSync(folder, { recursive: true }));
fs.symlinkSync(modules, path.join(folder, 'node_modules'));

const bundlers = {
  gutsirava: (entry) => [program, [entry, '--main-fields=module,main', '-o', 'out/gutsirava.mjs']],
  esbuild: (entry) => ['esbuild', [entry, '--bundle', '--format=esm', '--platform=node', '--tree-shaking=false', '--main-fields=module,main', '--outfile=out/esbuild.mjs']],
};

// The seconds of a run, user and system, and its memory at the peak, in MB.
function timed([command, words]) {
  const { status, stderr, error } = spawnSync('/usr/bin/time', ['-f', '%U %S %M %e', command, ...words],
    { cwd: folder, encoding: 'utf8', env: { ...process.env, GOMAXPROCS: '1' } });
  if (error || status !== 0) throw new Error(`${command}: ${error ?? stderr}`);
  const [user, system, peak, wall] = stderr.trim().split('\n').at(-1).split(' ').map(Number);
  return { user, system, memory: peak / 1024, wall };
}

const best = (all) => all.reduce((a, b) => (b.user + b.system < a.user + a.system ? b : a));
const line = (cells) => console.log(`| ${cells.join(' | ')} |`);
line(['Package', 'Bundler', 'User s', 'System s', 'Wall s', 'MB at the peak', 'KB of the bundle']);
line(Array(7).fill('---'));
for (const name of packages) {
  const entry = `${name.split('/')[0]}.mjs`;
  fs.writeFileSync(path.join(folder, entry), `export * from '${name}';\n`);
  for (const [bundler, words] of Object.entries(bundlers)) {
    const { user, system, wall, memory } = best(Array.from({ length: runs }, () => timed(words(entry))));
    const size = fs.statSync(path.join(folder, 'out', `${bundler}.mjs`)).size / 1024;
    line([name, bundler, user.toFixed(2), system.toFixed(2), wall.toFixed(2), memory.toFixed(0), size.toFixed(0)]);
  }
}
