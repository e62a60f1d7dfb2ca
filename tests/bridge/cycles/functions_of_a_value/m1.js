import { f } from './main.js';
function a() { return f; }
function b() { return f; }
export const y = [b];
