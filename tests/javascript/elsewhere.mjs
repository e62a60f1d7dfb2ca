// Errors that are told at another token than Babel and Node tell them, by what we say.
const known = [
  // The first that is wrong is known at the token behind it, where reading stops.
  { ours: /^/, isTold: 'next' },
  // What is refused as a whole is told where it begins.
  {
    ours: /^(invalid target|invalid declaration in the head of|delete of|an escape in a name|a getter has no parameter)/,
    isTold: 'before',
  },
  {
    ours: /^(import attributes|import\.meta outside|import and export may only|invalid regular expression: the flag v)/,
    isTold: 'before',
  },
  { ours: /^await is reserved here/, isTold: 'before' },
  // That parameters without their arrow are none is known behind them, and that an arrow may not stand where it does is too.
  {
    ours: /^unexpected/,
    judges: /^Unexpected token( '\.\.\.')?$|^Malformed arrow function parameter list$/,
    isTold: 'behind',
  },
  // Only the end of a list of exports says that its names are of this module.
  {
    ours: /^unexpected/,
    judges: /Unexpected (keyword|reserved word)|string literal cannot|Can not use 'await'/,
    isTold: 'behind',
  },
  // A rest element that is not the last is told at the comma behind it.
  { ours: /^invalid target/, judges: /rest element/i, isTold: 'behind' },
];

const isTold = {
  next: (ours, judge) => ours === judge + 1,
  before: (ours, judge) => ours < judge,
  behind: (ours, judge) => ours > judge,
};

/** Whether what we say may be told at this token while a judge tells what it says at that one. */
export const mayBeTold = (said, token, judge, judgesToken) => known.some((row) => row.ours.test(said)
  && (!row.judges || row.judges.test(judge)) && isTold[row.isTold](token, judgesToken));
