// Forms without what a text may or may not have of them.
const single = new Set(['IfStmt', 'ForStmt', 'ForInStmt', 'ForOfStmt', 'WhileStmt', 'DoWhileStmt', 'LabeledStmt', 'WithStmt']);
const unwrapped = (node) => (node?.type === 'BlockStmt' && node.stmts.length === 1 ? node.stmts[0] : node);

/**
 * What is written of a form without its parentheses. A name in them is no pattern, and without them it is one. Where a single
 * statement stands, a block of one is no other: before an `else` it may be needed.
 */
export const bareForm = (form) => JSON.stringify(JSON.parse(form, (key, node) => {
  if (node?.type === 'ParenExpr') return node.expr;
  if (node?.type === 'BindingIdent') return node.id;
  if (single.has(node?.type)) for (const part of ['cons', 'alt', 'body']) if (part in node) node[part] = unwrapped(node[part]);
  return node;
}));
