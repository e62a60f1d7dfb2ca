export function* range(end) { for (let at = 0; at < end; at++) yield at; }
export async function* later(values) { for (const value of values) yield await value; }
