// Where Babel and Node differ on whether a text is one of ECMAScript 2022, and which of them is right: `node`, `babel`, or
// `neither` where both are, each by its version of Unicode. A row is of the texts that one of them refuses with this
// message while the other takes them, and that match `text` where the row has it.
export const differences = [
  {
    name: 'Babel reads no regular expressions',
    node: /^Invalid regular expression: /,
    decides: 'node',
  },
  {
    name: 'Babel takes eval and arguments as names of classes',
    node: /^Unexpected eval or arguments in strict mode$/,
    decides: 'node',
  },
  {
    name: 'Babel takes delete of a name in parentheses',
    node: /^Delete of an unqualified identifier in strict mode\.$/,
    decides: 'node',
  },
  {
    name: 'Babel takes delete of a private name in parentheses',
    node: /^Private fields can not be deleted$/,
    decides: 'node',
  },
  {
    name: 'Babel takes an async arrow function as an operand',
    node: /^Malformed arrow function parameter list$/,
    decides: 'node',
  },
  {
    name: 'Babel takes return in a static block where it may stand at the top',
    node: /^Illegal return statement$/,
    decides: 'node',
  },
  {
    name: 'Babel takes async function with an escape right behind it',
    node: /^Unexpected identifier 'function/,
    text: /async\s+function\\u/,
    decides: 'node',
  },
  {
    name: 'Babel refuses new.target outside functions of a CommonJS module',
    babel: /^`new\.target` can only be used in functions or class properties\.$/,
    decides: 'node',
  },
  {
    name: 'V8 takes a call as a target, for old pages',
    babel: /^Invalid left-hand side in /,
    decides: 'babel',
  },
  {
    name: 'V8 refuses operators that would be an HTML-like comment in a script',
    node: /^HTML comments are not allowed in modules$|^Missing } in template expression$/,
    text: /<!--/,
    decides: 'babel',
  },
  {
    name: 'V8 refuses a member that is called async before of',
    node: /^The left-hand side of a for-of loop may not be 'async'\.$/,
    text: /\.\s*async\s+of/,
    decides: 'babel',
  },
  {
    name: 'V8 refuses a pattern behind an argument that could be none',
    node: /^Invalid destructuring assignment target$/,
    text: /\([^]*,[^]*[\]}]\s*=[^=>]/,
    decides: 'babel',
  },
  {
    name: 'V8 takes an escape in the await of for await',
    babel: /^Unexpected token, expected "\("$/,
    text: /for\s*\S*\\u/,
    decides: 'babel',
  },
  {
    name: 'the flag v is newer',
    babel: /"regexpUnicodeSets"/,
    decides: 'babel',
  },
  {
    name: 'a second argument of import() is newer',
    babel: /^This experimental syntax requires enabling|^Trailing comma is disallowed inside import\(/,
    text: /import\s*\(/,
    decides: 'babel',
  },
  {
    name: 'import attributes are newer',
    babel: /^This experimental syntax requires enabling|^Unexpected token, expected "[;(]"$/,
    text: /["']\s*(with|assert)\b/,
    decides: 'babel',
  },
  {
    name: 'import attributes behind a line terminator are newer',
    node: /^Unexpected token/,
    text: /["']\s*[\n\r\u2028\u2029]\s*with\b/,
    decides: 'babel',
  },
  {
    name: 'half of a surrogate pair has no form',
    babel: /^a text with half of a surrogate pair has no form$/,
    decides: 'babel',
  },
  {
    name: 'letters are newer',
    babel: /^Unexpected character '/,
    text: /[\u30fb\uff65]/,
    decides: 'neither',
  },
];
