// CommonJS modules: exports by name and whole, `this`, a module that runs once, late and in a branch.
const { add, counter } = require('./math');
const whole = require('./whole.js');
console.log(add(1, 2), whole('x'), counter.count, require('./whole.js') === whole);
if (add(1, 1) === 2) { const late = require('./late'); console.log(late.value, require('./late').value); }
function never() { return require('./never'); }
console.log(typeof never);
const parts = require('./folder');
console.log(parts.name, parts.parent(), Object.keys(require('./math')).join());
