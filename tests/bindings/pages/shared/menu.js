export const menu = (names) => names.map((name) => `[${name}]`).join(' ');
