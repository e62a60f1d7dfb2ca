import { Animal } from './animal.js';
export const breeds = new Set(['collie']);
export default class Dog extends Animal {
  static { breeds.add(super.first); }
  speak() { return `${super.speak()} barks`; }
}
