export class Animal {
  static made = 0;
  static { this.first = 'animal'; }
  constructor(name) { this.name = name; Animal.made++; }
  speak() { return this.name; }
}
