// The parser and the printer: @babel/parser and @babel/generator, of Debian's package node-babel7 or of npm.
import { createRequire } from 'node:module';
import { Failure } from './failure.mjs';

const require = createRequire(import.meta.url);

const load = (name) => {
  try {
    return require(name);
  } catch (error) {
    if (error.code !== 'MODULE_NOT_FOUND') throw error;
    throw new Failure(`${name} is not here: apt-get install node-babel7, or npm install ${name}`);
  }
};

export const { parse } = load('@babel/parser');
export const { default: generate } = load('@babel/generator');
