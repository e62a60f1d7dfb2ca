// `import()` stays as it is.
const { join } = await import('node:path');
const name = 'node:os';
console.log(join('x', 'y'), typeof (await import(name)).cpus);
const loaded = import('node:fs').then((fs) => typeof fs.readFileSync);
console.log(await loaded);
