// A cycle of CommonJS modules sees what is there so far.
const a = require('./a');
console.log('main', a.done, require('./b').done, require('./b').sawA);
