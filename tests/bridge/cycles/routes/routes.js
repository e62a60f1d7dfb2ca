import { app } from './main.js';
export function url(path) { return app.base + path; }
export function home() { return app.base + 'home'; }
export const routes = { home };
