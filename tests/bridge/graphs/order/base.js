globalThis.steps = [];
console.log('base');
