export const tag = (strings, ...values) => JSON.stringify([strings.raw, values]);
export const settings = { depth: { level: undefined, width: 2 }, call: (x) => x * 2 };
