// Usage: node serve.mjs [PORT]. Serves the page to this machine, also unbundled: an import map leads to the packages' ES modules.
import fs from 'node:fs';
import http from 'node:http';
import path from 'node:path';
import { fileURLToPath } from 'node:url';

const TYPES = { '.html': 'text/html', '.css': 'text/css', '.js': 'text/javascript', '.mjs': 'text/javascript', '.map': 'application/json', '.svg': 'image/svg+xml' };

// The files of a package's ES modules: those that a bundler takes with the words of `build`.
function modulesOf(name, exports, module) {
  const listed = Object.entries(exports ?? {}).filter(([from, to]) => to.es2015 && !from.includes('*'));
  const paths = listed.length > 0 ? listed.map(([from, to]) => [from, to.es2015]) : [['.', module]];
  return paths.map(([from, to]) => [path.posix.join(name, from), path.posix.join('/node_modules', name, to)]);
}

function importMap(folder) {
  const packages = path.join(folder, 'node_modules');
  const imports = Object.fromEntries(fs.readdirSync(packages).map((name) => path.join(packages, name, 'package.json'))
    .filter((file) => fs.existsSync(file)).map((file) => [path.basename(path.dirname(file)), JSON.parse(fs.readFileSync(file, 'utf8'))])
    .filter(([, { module }]) => module).flatMap(([name, { exports, module }]) => modulesOf(name, exports, module)));
  return `<script type="importmap">${JSON.stringify({ imports })}</script>`;
}

/** A server of the page in that folder, not listening yet. */
export function serverOf(folder) {
  return http.createServer((request, response) => {
    const name = path.posix.normalize(decodeURIComponent(new URL(request.url, 'http://localhost').pathname));
    // Packages leave the ending of a path out.
    const file = [name, `${name}.js`, path.posix.join(name, 'index.html')].map((one) => path.join(folder, one))
      .find((one) => fs.statSync(one, { throwIfNoEntry: false })?.isFile());
    if (!file) return response.writeHead(404).end();
    const text = fs.readFileSync(file, 'utf8');
    if (file.endsWith('.json')) return response.writeHead(200, { 'Content-Type': TYPES['.js'] }).end(`export default ${text}`);
    response.writeHead(200, { 'Content-Type': TYPES[path.extname(file)] ?? 'application/octet-stream' });
    return response.end(text.replace('<!-- import map -->', () => importMap(folder)));
  });
}

if (process.argv[1] === fileURLToPath(import.meta.url)) {
  const server = serverOf(path.dirname(process.argv[1]));
  server.listen(Number(process.argv[2] ?? 8080), 'localhost', () => {
    ['', 'script.html', 'modules.html'].forEach((page) => console.log(`http://localhost:${server.address().port}/${page}`));
  });
}
