const list = [1, 2];
export { list as default };
export const size = list.push(3);
