import { v } from './main.js';
if (typeof globalThis.done !== 'undefined') throw new Error('main ran before a');
export const get = () => v;
