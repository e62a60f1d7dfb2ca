import { Shape } from './shape.js';
export class Circle extends Shape {}
Circle.prototype.kind = 1;
export var Kind;
(function (Kind) { Kind[Kind['Round'] = 1] = 'Round'; })(Kind || (Kind = {}));
console.log(new Circle().name());
