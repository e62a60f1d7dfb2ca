const value = 'deep';
export { value as 'a name', value as default };
export const deep = 1;
