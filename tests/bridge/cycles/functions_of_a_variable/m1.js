import { f } from './main.js';
function a() { return f; }
function b() { return f; }
export var y = [b];
