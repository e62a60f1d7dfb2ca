import { Kind } from './main.js';
export class Shape {
  name() { return Kind[this.kind]; }
}
