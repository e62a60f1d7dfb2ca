import { register } from './main.js';
export class P {}
register(P);
