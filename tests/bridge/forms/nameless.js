// A nameless default, which stands in its place.
export default class { static kind = 'class'; }
console.log('nameless');
