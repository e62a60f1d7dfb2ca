export const where = import.meta.url.split('/').slice(-3).join('/');
export const folder = new URL('.', import.meta.url).pathname.split('/').at(-2);
