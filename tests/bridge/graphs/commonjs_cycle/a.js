exports.done = false;
const b = require('./b');
console.log('a saw', b.done);
exports.done = true;
