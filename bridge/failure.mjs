// What the user is told in place of a bundle.

/** A failure that is told by its text alone, and the status that the command ends with. */
export class Failure extends Error {
  constructor(text, status = 1) {
    super(text);
    this.status = status;
  }
}

/** A failure at a place of a file: `line` counts from 1, `column` from 0, as the parser counts. */
export const failureAt = (file, { line, column }, text) => new Failure(`${file}:${line}:${column + 1}: ${text}`);
