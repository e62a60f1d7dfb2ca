exports.done = false;
exports.sawA = require('./a').done;
console.log('b saw', exports.sawA);
exports.done = true;
