const print = console.log;
export const log = (...values) => print('log', ...values);
const console1 = 'taken';
{ const console = { log: print }; console.log(console1); }
