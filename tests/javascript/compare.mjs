// What we say to a text beside Babel and Node.
import { bareForm } from './bare.mjs';
import { babelOf, nodeOf, verdict } from './judges.mjs';

export const whyOf = ({ refusal }) => (refusal
  ? `refuses (${refusal.line ?? 0}:${refusal.column ?? 0}: ${refusal.message})` : 'takes it');

/** Where two forms begin to differ. */
export function firstDifference(ours, babels) {
  let at = 0;
  while (at < ours.length && ours[at] === babels[at]) at += 1;
  const part = (form) => form.slice(Math.max(0, at - 80), at + 120);
  return `ours ..${part(ours)}.., Babel's ..${part(babels)}..`;
}

/**
 * How an answer to a text differs from what Babel and Node say: `fault`, null where it does not; and the name of a difference
 * of these two (`named`).
 */
export function compared({ text, goal }, answer, said = verdict(text, goal)) {
  const { babel, node, taken, difference } = said;
  const told = () => `ours ${whyOf(answer)}, Babel ${whyOf(babel)}, Node ${whyOf(node)}`;
  if (answer.crash) return { fault: `the program ended with ${answer.crash}` };
  if (difference === null) return { fault: `Babel and Node differ, and that has no name: ${told()}` };
  const named = difference;
  if (taken !== undefined && taken !== !answer.refusal) return { fault: told(), named };
  if (answer.refusal) return { fault: null, named };
  if (babel.form && babel.form !== answer.form) {
    return { fault: `another form: ${firstDifference(answer.form, babel.form)}`, named };
  }
  return { fault: printedFault({ text, goal }, answer, babel) ?? bareFault({ text, goal }, answer), named };
}

// What is wrong with what is printed of a form: it is another when Babel reads it, or Node refuses it. What ends in `async` may
// stand in parentheses before `of`: there ECMA-262 refuses the name, and V8 a member of that name too.
function printedFault({ text, goal }, answer, babel) {
  const again = babelOf(answer.text, goal);
  const isSame = again.refusal ? Boolean(babel.refusal) : again.form === answer.form
    || (/\basync\) of /.test(answer.text) && bareForm(again.form) === bareForm(answer.form));
  const shown = `printed as ${JSON.stringify(answer.text.slice(0, 200))}`;
  if (!isSame) return `${shown} and read again: ${again.refusal ? whyOf(again) : firstDifference(answer.form, again.form)}`;
  const node = nodeOf(answer.text, goal);
  return node.refusal && !nodeOf(text, goal).refusal ? `${shown}: Node ${whyOf(node)}` : null;
}

// What is wrong with what is printed of a form without its parentheses: it is another form when Babel reads it, but for
// parentheses, or Node refuses it. A text that stood in them may be refused as a directive.
function bareFault({ text, goal }, answer) {
  const [before, babel] = [babelOf(text, goal), babelOf(answer.bare, goal)];
  if (before.refusal || /directive|octal/i.test(babel.refusal?.message)) return null;
  const shown = `printed bare as ${JSON.stringify(answer.bare.slice(0, 200))}`;
  if (babel.refusal) return `${shown} and read again: ${whyOf(babel)}`;
  const [wanted, given] = [before, babel].map(({ form }) => bareForm(form));
  if (wanted !== given) return `${shown} and read again: ${firstDifference(wanted, given)}`;
  const node = nodeOf(answer.bare, goal);
  return node.refusal && !nodeOf(text, goal).refusal ? `${shown}: Node ${whyOf(node)}` : null;
}

/**
 * What is wrong with what is printed of a form: Babel or Node refuses it, or Babel's form is another but for parentheses and for
 * how strings are written.
 */
export function treeFault(form, answer) {
  if (!answer.text) return `no text is printed of ${form}: ${answer.crash ?? answer.refusal.message}`;
  const { babel, node, taken } = verdict(answer.text, 'module');
  const shown = `printed as ${JSON.stringify(answer.text)}`;
  if (/directive/.test(babel.refusal?.message)) return null;
  if (!taken || !babel.form) return `${shown}: Babel ${whyOf(babel)}, Node ${whyOf(node)}`;
  const [wanted, given] = [form, babel.form]
    .map((it) => bareForm(it).replace(/"raw":("([^"\\]|\\.)*"|null),"type":"Str"/g, '"type":"Str"'));
  return wanted === given ? null : `${shown} and read again: ${firstDifference(wanted, given)}`;
}
