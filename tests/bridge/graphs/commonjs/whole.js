const { counter } = require('./math');
counter.count += 10;
module.exports = function whole(text) { return `whole ${text} ${arguments.length}`; };
