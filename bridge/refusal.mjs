// The program's refusals in the words of docs/DOCUMENT.md, "Answers".

const meanings = {
  Load: 'a file is not among those of the document',
  Resolve: 'a specifier leads to no file',
  Hook: 'the properties of import.meta cannot be had',
  TooManyModules: 'there are more modules than may be loaded',
  ContextsUsedUp: 'the numbers that tell names apart are used up',
  DoubledDeclaration: 'a name is declared twice where that is an error',
  DoubledExport: 'a module exports one name twice',
  UndeclaredExport: 'a module exports a name of its own that its top does not bind',
  MissingExport: 'an imported name is not exported',
  AmbiguousExport: 'an imported name is exported by two `export *`, differently',
  ExternalStarOnly: 'an imported name may only come from an external module that is starred',
  StarOfCommonJs: '`export *` of a CommonJS module',
  NamespaceOverExternalStar: 'a namespace object is needed of a module that stars an external one',
  With: 'a `with` statement',
  RequiredEsModule: 'a `require` of an ES module',
  RequiredEntry: 'a `require` of the entry',
  AwaitInCommonJs: 'an `await` outside functions in a CommonJS module',
  DoubledEntry: 'two entries of one name or one file',
  ExternalUnderIife: 'an external import in a bundle that is one function\'s call',
  ArgumentsUnderIife: 'a free `arguments` in a bundle that is one function\'s call',
  OutOfMemory: 'memory was refused',
};

/** What a user is told of a refusal: its number, its name, and where that is known its file and the name in it. */
export function refusalText({ number, name, file, word }, paths) {
  const place = file ? `${paths.get(file) ?? file}: ` : '';
  const what = word ? ` '${word}'` : '';
  return `${place}error ${number}: ${name}${what}: ${meanings[name] ?? 'see docs/DOCUMENT.md'}`;
}
