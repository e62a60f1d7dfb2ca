// Classes that extend those of other modules, with private names and static blocks.
import { Animal } from './animal.js';
import Dog, { breeds } from './dog.js';
class Cat extends Animal { #lives = 9; get lives() { return this.#lives; } speak() { return `${super.speak()} purrs`; } }
console.log(new Cat('Tom').speak(), new Dog('Rex').speak(), new Cat('x').lives, breeds.size, Animal.made);
console.log(new Dog('a') instanceof Animal, Object.getPrototypeOf(Dog) === Animal);
