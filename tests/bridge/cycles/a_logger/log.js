import { level } from './main.js';
export const logger = {
  init() { globalThis.settings = { level: 3 }; },
  log(text) { if (level > 1) console.log(text); },
};
