// A default function with a name, which its own module calls.
console.log(counted());
export default function counted() { return 'counted'; }
