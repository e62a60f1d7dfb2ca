// A default that is an expression.
export default (1, [2, 3]);
console.log('valued');
