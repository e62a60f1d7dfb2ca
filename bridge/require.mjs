// Node's `require` for a bundle that has calls of it left: an ES module has none by itself.

const word = (sym) => ({ type: 'Ident', sym });
const binding = (sym) => ({ type: 'BindingIdent', id: word(sym) });

/**
 * The form of a bundle, with `const require = createRequire(import.meta.url)` in front where it speaks of `require` and its
 * top binds none. Where it speaks of the global one no name of the top is called so, as the linker keeps names apart.
 */
export function withRequire(module) {
  const names = new Set();
  let isBound = false;
  const visit = (form, isTop) => {
    if (form === null || typeof form !== 'object') return;
    if (form.type === 'Ident') names.add(form.sym);
    isBound ||= isTop && bindsRequire(form);
    Object.values(form).forEach((part) => visit(part, isTop && !isInner(form)));
  };
  visit(module, true);
  if (isBound || !names.has('require')) return module;
  let maker = 'createRequire';
  for (let number = 1; names.has(maker); number += 1) maker = `createRequire${number}`;
  return { type: 'Module', body: [imported(maker), made(maker), ...module.body] };
}

// Whether what a node declares is no name of the top.
const isInner = ({ type }) => ['Function', 'ArrowExpr', 'Constructor', 'GetterProp', 'SetterProp', 'StaticBlock'].includes(type);

/** Whether a node of a form gives something the name `require`. */
export const bindsRequire = ({ id, local, ident }) => [id, local, ident].some((name) => name?.sym === 'require');

const imported = (maker) => ({
  type: 'ImportDecl',
  src: { type: 'Str', value: 'node:module', raw: null },
  specifiers: [{
    type: 'ImportNamedSpecifier', local: word(maker), imported: maker === 'createRequire' ? null : word('createRequire'),
  }],
});
const made = (maker) => ({
  type: 'VarDecl',
  kind: 'const',
  decls: [{
    type: 'VarDeclarator',
    name: binding('require'),
    init: {
      type: 'CallExpr',
      callee: word(maker),
      args: [{
        type: 'ExprOrSpread',
        spread: false,
        expr: {
          type: 'MemberExpr',
          obj: { type: 'MetaPropExpr', kind: 'import.meta' },
          prop: { type: 'IdentName', sym: 'url' },
        },
      }],
    },
  }],
});
