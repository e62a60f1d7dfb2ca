// `require` of what is no file, of a name that is computed, and of a module in which something else is called `require`.
const path = require('node:path');
const createRequire = 'taken';
const name = 'node:os';
console.log(path.basename('/a/b'), typeof require(name).cpus, createRequire);
console.log(require('./own.js').own);
