export * from './deep.js';
export const far = 'far';
