console.log('math runs');
exports.add = (a, b) => a + b;
exports.counter = { count: 0 };
exports.counter.count += 1;
this.self = exports === this;
