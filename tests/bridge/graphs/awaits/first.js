console.log('first begins');
export const first = await new Promise((resolve) => setTimeout(() => resolve('first'), 5));
console.log('first ends');
