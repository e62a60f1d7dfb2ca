import { routes } from './routes.js';
export const app = { base: '/', routes };
console.log(app.routes.home());
