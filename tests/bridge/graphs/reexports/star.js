export * from './deep.js';
export * from './far.js';
export const own = 'star';
