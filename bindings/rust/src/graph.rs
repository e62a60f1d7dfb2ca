//! The files of a bundle: gathered from a loader and a resolver, and written as a document.
use crate::archive;
use crate::bundler::Config;
use crate::error::{Cause, Error, ErrorKind, SyntaxError};
use crate::json::Json;
use crate::party::{Hook, Load, Resolve, Source, Target};
use std::collections::{BTreeMap, BTreeSet};
use std::mem;

/// How deep lists and objects of a document may lie in each other, and how deep a module stands in it.
const MOST_DEPTH: usize = 127;
const DEPTH_OF_MODULES: usize = 2;

/// A specifier that leads to no file: the program's resolver takes those alone that begin with `./`.
const LEADS_NOWHERE: &str = "\0";

/// What stands before and behind the name of a file in the specifiers of a document.
const BEFORE: &str = "./";
const ENDING: &str = ".js";

/// The files that entries reach, in the order in which the linker loads them.
pub(crate) struct Graph {
    files: Vec<File>,
    externals: BTreeSet<String>,
    /// What a loader or a resolver failed with, behind which nothing was asked any more.
    failure: Option<Error>,
    /// The same of a hook.
    hook_failure: Option<Error>,
    /// What the names of files begin with in the document.
    mark: String,
}

/// A file, with the form of its tree, where its specifiers lead, and the properties of its `import.meta`.
struct File {
    name: String,
    form: Json,
    links: BTreeMap<String, Option<String>>,
    meta: Vec<(String, String)>,
}

impl Graph {
    /// The files that the entries reach. A loader or a resolver that fails is asked no further; a text that is no module
    /// is an error at once.
    pub(crate) fn gather(
        loader: &mut impl Load,
        resolver: &mut impl Resolve,
        hook: &mut impl Hook,
        config: &Config,
        entries: &[(String, String)],
    ) -> Result<Graph, Error> {
        let mut graph = Graph {
            files: Vec::new(),
            externals: BTreeSet::new(),
            failure: None,
            hook_failure: None,
            mark: String::new(),
        };
        let mut found = Found::default();
        entries.iter().for_each(|(_, file)| found.meet(file));
        // A file beyond the limit is the linker's to tell.
        while let Some(name) = found.next().filter(|_| graph.has_room(config)) {
            let source = match loader.load(&name) {
                Ok(source) => source,
                Err(cause) => {
                    graph.failure = Some(Error::new(ErrorKind::Load).at(name).because(cause));
                    break;
                }
            };
            let mut file = File::read(name, &source)?;
            let is_resolved = graph.resolve(&mut file, resolver, config, &mut found);
            graph.ask(&mut file, hook);
            graph.files.push(file);
            if !is_resolved {
                break;
            }
        }
        Ok(graph)
    }

    fn has_room(&self, config: &Config) -> bool {
        self.files.len() < usize::try_from(config.max_modules).unwrap_or(usize::MAX)
    }

    // Resolves the requests of a file. False where the resolver fails.
    fn resolve(
        &mut self,
        file: &mut File,
        resolver: &mut impl Resolve,
        config: &Config,
        found: &mut Found,
    ) -> bool {
        for specifier in file.requests(config.require) {
            if self.externals.contains(&specifier) || file.links.contains_key(&specifier) {
                continue;
            }
            match resolver.resolve(&file.name, &specifier) {
                Ok(Target::File(target)) => {
                    found.meet(&target);
                    file.links.insert(specifier, Some(target));
                }
                Ok(Target::External) => {
                    self.externals.insert(specifier);
                }
                Err(cause) => {
                    self.failure = Some(failed_to_resolve(file, &specifier, cause));
                    file.links.insert(specifier, None);
                    return false;
                }
            }
        }
        true
    }

    // Asks for the properties of `import.meta`, where the file speaks of it.
    fn ask(&mut self, file: &mut File, hook: &mut impl Hook) {
        if self.hook_failure.is_some() || !file.has_import_meta() {
            return;
        }
        match hook.import_meta(&file.name) {
            Ok(properties) => file.meta = properties,
            Err(cause) => {
                let failure = Error::new(ErrorKind::Hook).at(file.name.as_str());
                self.hook_failure = Some(failure.because(cause));
            }
        }
    }

    /// The document that asks for bundles of these entries. The forms of the files are handed over to it.
    pub(crate) fn document(&mut self, config: &Config, entries: &[(String, String)]) -> String {
        self.mark = self.free_mark();
        let mark = &self.mark;
        let name_of = |file: &str| format!("{mark}{file}{ENDING}");
        let (mut forms, mut meta) = (Vec::new(), Vec::new());
        for file in &mut self.files {
            file.write_links(|target| format!("{BEFORE}{}", name_of(target)));
            let name = name_of(&file.name);
            meta.push((name.clone(), file.properties()));
            forms.push((name, mem::replace(&mut file.form, Json::Null)));
        }
        let entries = entries.iter().map(|(name, file)| {
            Json::List(vec![Json::text(name.as_str()), Json::text(name_of(file))])
        });
        Json::object([
            ("config", self.settings(config)),
            ("files", Json::Object(forms)),
            ("entries", Json::List(entries.collect())),
            ("meta", Json::Object(meta)),
        ])
        .to_string()
    }

    // What the names of files may begin with, so that no external specifier is that of a file.
    fn free_mark(&self) -> String {
        let mut mark = String::new();
        while self
            .externals
            .iter()
            .any(|it| it.starts_with(&format!("{BEFORE}{mark}")))
        {
            mark.push('_');
        }
        mark
    }

    fn settings(&self, config: &Config) -> Json {
        let externals = self.externals.iter().map(|it| Json::text(it.as_str()));
        Json::object([
            ("require", Json::Bool(config.require)),
            (
                "module",
                Json::text(if config.iife { "Iife" } else { "Es" }),
            ),
            (
                "order",
                Json::text(if config.in_standard_order {
                    "Standard"
                } else {
                    "Needs"
                }),
            ),
            ("max_modules", Json::Number(config.max_modules.to_string())),
            ("external_modules", Json::List(externals.collect())),
        ])
    }

    /// The error of a hook that failed.
    pub(crate) fn hook_failure(&mut self) -> Option<Error> {
        self.hook_failure.take()
    }

    /// What the linker's refusal of the document stands for: what the loader or the resolver failed with, where it tells of
    /// that; else the same of the file and the specifier that the document has other texts for.
    pub(crate) fn error(&mut self, refusal: Error) -> Error {
        match self.failure.take() {
            Some(failure) if failure.kind() == refusal.kind() => failure,
            _ if refusal.kind() == ErrorKind::NoDocument => Error::new(ErrorKind::TooDeep),
            _ => self.named(refusal),
        }
    }

    // A refusal of the document, with the names of the files as they were met.
    fn named(&self, refusal: Error) -> Error {
        let Some(file) = refusal.file().and_then(|name| self.file_called(name)) else {
            return refusal;
        };
        let specifier = refusal
            .name()
            .filter(|_| refusal.kind().has_specifier())
            .and_then(|name| self.specifier(file, name));
        let (file, specifier) = (file.to_owned(), specifier.map(str::to_owned));
        let refusal = refusal.at(file);
        match specifier {
            Some(specifier) => refusal.named(specifier),
            None => refusal,
        }
    }

    // The file that has this name in the document.
    fn file_called<'a>(&self, name: &'a str) -> Option<&'a str> {
        name.strip_prefix(&*self.mark)?.strip_suffix(ENDING)
    }

    // The specifier of a file that leads where this one of the document leads.
    fn specifier(&self, file: &str, written: &str) -> Option<&str> {
        let target = self.file_called(written.strip_prefix(BEFORE)?)?;
        let file = self.files.iter().find(|it| it.name == file)?;
        let mut links = file.links.iter();
        links
            .find(|(_, to)| to.as_deref() == Some(target))
            .map(|(specifier, _)| specifier.as_str())
    }
}

fn failed_to_resolve(file: &File, specifier: &str, cause: Cause) -> Error {
    Error::new(ErrorKind::Resolve)
        .at(file.name.as_str())
        .named(specifier)
        .because(cause)
}

impl File {
    fn read(name: String, source: &Source) -> Result<File, Error> {
        let answer = archive::form(&source.text, source.is_common_js);
        if answer.status != 0 {
            let refusal = Error::told(&answer.text);
            let wrong = Error::new(ErrorKind::Syntax).because(SyntaxError::told(&answer.text));
            let is_memory = refusal.kind() == ErrorKind::OutOfMemory;
            return Err(if is_memory { refusal } else { wrong.at(name) });
        }
        match form_of(&answer.text) {
            Some(form) => Ok(File {
                name,
                form,
                links: BTreeMap::new(),
                meta: Vec::new(),
            }),
            None => Err(Error::new(ErrorKind::TooDeep).at(name)),
        }
    }

    // The specifiers that the file imports and exports from, in the order of the source, and then those that it requires.
    // Where something in it is called `require`, calls of that are no requests.
    fn requests(&self, with_require: bool) -> Vec<String> {
        let (mut declared, mut required, mut is_bound) = (Vec::new(), Vec::new(), false);
        self.form.walk(&mut |node| {
            declared.extend(declared_source(node).and_then(specifier));
            required.extend(required_source(node).and_then(specifier));
            is_bound |= binds_require(node);
        });
        if with_require && !is_bound {
            declared.append(&mut required);
        }
        declared
    }

    fn has_import_meta(&self) -> bool {
        let mut has = false;
        self.form.walk(&mut |node| {
            has |= node.is_node("MetaPropExpr")
                && node.get("kind").and_then(Json::as_str) == Some("import.meta");
        });
        has
    }

    // Writes the specifiers that were resolved anew.
    fn write_links(&mut self, specifier_of: impl Fn(&str) -> String) {
        let links = &self.links;
        self.form.walk_mut(&mut |node| {
            let is_request = declared_source(node).is_some() || required_source(node).is_some();
            let Some(source) = source_mut(node).filter(|_| is_request) else {
                return;
            };
            let written = match specifier(source).and_then(|text| links.get(&text)) {
                Some(Some(target)) => specifier_of(target),
                Some(None) => LEADS_NOWHERE.to_owned(),
                None => return,
            };
            source.put("value", Json::Text(written));
            source.put("raw", Json::Null);
        });
    }

    // The properties of `import.meta` as a document has them.
    fn properties(&self) -> Json {
        let property = |(key, value): &(String, String)| {
            let key = Json::object([
                ("type", Json::text("Str")),
                ("value", Json::text(key.as_str())),
            ]);
            let value = Json::object([
                ("type", Json::text("Str")),
                ("value", Json::text(value.as_str())),
            ]);
            Json::object([
                ("type", Json::text("KeyValueProp")),
                ("key", key),
                ("value", value),
            ])
        };
        Json::List(self.meta.iter().map(property).collect())
    }
}

// The form of a tree, where a document may be so deep.
fn form_of(text: &str) -> Option<Json> {
    let form = Json::read(text)?;
    (form.depth() + DEPTH_OF_MODULES <= MOST_DEPTH).then_some(form)
}

// The text behind `from` of an import or export.
fn declared_source(node: &Json) -> Option<&Json> {
    node.get("src").filter(|source| source.is_node("Str"))
}

// The text of a call `require('text')`.
fn required_source(node: &Json) -> Option<&Json> {
    let callee = node
        .get("callee")
        .filter(|callee| callee.is_node("Ident"))?;
    let is_require = callee.get("sym").and_then(Json::as_str) == Some("require");
    match node.get("args").and_then(Json::as_list) {
        Some([argument]) if is_require && argument.get("spread") != Some(&Json::Bool(true)) => {
            argument.get("expr").filter(|text| text.is_node("Str"))
        }
        _ => None,
    }
}

// The place of either in a node.
fn source_mut(node: &mut Json) -> Option<&mut Json> {
    let Json::Object(members) = node else {
        return None;
    };
    let (_, value) = members
        .iter_mut()
        .find(|(key, _)| key == "src" || key == "args")?;
    match value {
        Json::List(arguments) => match arguments.first_mut()? {
            Json::Object(argument) => argument
                .iter_mut()
                .find(|(key, _)| key == "expr")
                .map(|(_, text)| text),
            _ => None,
        },
        source => Some(source),
    }
}

fn specifier(source: &Json) -> Option<String> {
    source
        .get("value")
        .and_then(Json::as_str)
        .map(str::to_owned)
}

// Whether a node gives something the name `require`.
fn binds_require(node: &Json) -> bool {
    ["id", "local", "ident"].iter().any(|key| {
        node.get(key)
            .and_then(|name| name.get("sym"))
            .and_then(Json::as_str)
            == Some("require")
    })
}

/// The files that were met, in their order, each once, and how many of them were handed on.
#[derive(Default)]
struct Found {
    files: Vec<String>,
    names: BTreeSet<String>,
    next: usize,
}

impl Found {
    fn meet(&mut self, file: &str) {
        if self.names.insert(file.to_owned()) {
            self.files.push(file.to_owned());
        }
    }

    fn next(&mut self) -> Option<String> {
        let file = self.files.get(self.next).cloned();
        self.next += usize::from(file.is_some());
        file
    }
}
