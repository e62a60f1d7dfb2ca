//! What a bundler asks of its parties, in which order, and what it makes of their failures.
use gutsirava::{
    Bundler, Cause, Config, Error, ErrorKind, Hook, Load, Relative, Resolve, Source, SyntaxError,
    Target,
};
use std::cell::{Cell, RefCell};
use std::collections::BTreeMap;
use std::error::Error as _;
use std::panic::{catch_unwind, AssertUnwindSafe};
use std::thread;

type Files = BTreeMap<&'static str, &'static str>;

fn code_of(files: Files, config: Config) -> Result<String, Error> {
    let mut bundler = Bundler::new(files, Relative).with_config(config);
    let mut bundles = bundler.bundle([("main", "main.js")])?;
    Ok(bundles.remove(0).code)
}

fn bundled(files: Files) -> Result<String, Error> {
    code_of(files, Config::default())
}

fn kind_of(files: Files) -> Option<ErrorKind> {
    bundled(files).err().map(|error| error.kind())
}

/// A loader and a resolver that write down what they are asked.
struct Told<'a, T> {
    party: T,
    calls: &'a RefCell<Vec<String>>,
}

impl<T: Load> Load for Told<'_, T> {
    fn load(&mut self, file: &str) -> Result<Source, Cause> {
        self.calls.borrow_mut().push(format!("load {file}"));
        self.party.load(file)
    }
}

impl<T: Resolve> Resolve for Told<'_, T> {
    fn resolve(&mut self, base: &str, specifier: &str) -> Result<Target, Cause> {
        self.calls
            .borrow_mut()
            .push(format!("resolve {specifier} of {base}"));
        self.party.resolve(base, specifier)
    }
}

fn calls_of(files: Files) -> (Vec<String>, Result<String, Error>) {
    let calls = RefCell::new(Vec::new());
    let loader = Told {
        party: files,
        calls: &calls,
    };
    let resolver = Told {
        party: Relative,
        calls: &calls,
    };
    let answer = Bundler::new(loader, resolver).bundle([("main", "main.js")]);
    let code = answer.map(|mut bundles| bundles.remove(0).code);
    (calls.into_inner(), code)
}

#[test]
fn each_request_is_made_once_and_files_come_level_by_level() {
    let (calls, code) = calls_of(Files::from([
        (
            "main.js",
            "import './a'; import { x } from './b'; export { x } from './b'; import 'fs';",
        ),
        ("a.js", "import './c'; import 'fs';"),
        ("b.js", "import './c.js'; export const x = 1;"),
        ("c.js", "import './main';"),
    ]));
    assert!(code.is_ok(), "{code:?}");
    let wanted = [
        "load main.js",
        "resolve ./a of main.js",
        "resolve ./b of main.js",
        "resolve fs of main.js",
        "load a.js",
        "resolve ./c of a.js",
        "load b.js",
        "resolve ./c.js of b.js",
        "load c.js",
        "resolve ./main of c.js",
    ];
    assert_eq!(calls, wanted);
}

#[test]
fn a_loader_that_fails_is_the_source_of_the_error() {
    let (calls, code) = calls_of(Files::from([
        ("main.js", "import './a'; import './b';"),
        ("b.js", ""),
    ]));
    let error = code.unwrap_err();
    assert_eq!(
        (error.kind(), error.kind().number(), error.file()),
        (ErrorKind::Load, Some(1), Some("a.js"))
    );
    assert_eq!(error.to_string(), "a.js: error 1: Load");
    assert_eq!(
        error.source().map(|cause| cause.to_string()).as_deref(),
        Some("there is no such file")
    );
    assert_eq!(calls.last().map(String::as_str), Some("load a.js"));
}

#[test]
fn a_resolver_that_fails_is_the_source_of_the_error() {
    let files = Files::from([
        ("main.js", "import './a'; import 'lost'; import './b';"),
        ("a.js", ""),
        ("b.js", ""),
    ]);
    let resolver = |base: &str, specifier: &str| match specifier {
        "lost" => Err(Cause::from("nobody knows it")),
        _ => Relative.resolve(base, specifier),
    };
    let error = Bundler::new(files, resolver)
        .bundle([("main", "main.js")])
        .unwrap_err();
    assert_eq!(
        (error.kind(), error.file(), error.name()),
        (ErrorKind::Resolve, Some("main.js"), Some("lost"))
    );
    assert_eq!(error.to_string(), "main.js: error 2: Resolve 'lost'");
    assert_eq!(
        error.source().map(|cause| cause.to_string()).as_deref(),
        Some("nobody knows it")
    );
}

#[test]
fn the_first_error_in_the_linkers_order_is_told() {
    let doubled = "import './lost'; export const x = 1; export { x };";
    assert_eq!(
        kind_of(Files::from([("main.js", doubled)])),
        Some(ErrorKind::DoubledExport)
    );
    let wanting = "import './lost'; import { y } from './a';";
    assert_eq!(
        kind_of(Files::from([("main.js", wanting), ("a.js", "")])),
        Some(ErrorKind::Load)
    );
}

#[test]
fn the_linkers_errors_have_their_kinds() {
    let missing = Files::from([("main.js", "import { y } from './a';"), ("a.js", "")]);
    assert_eq!(kind_of(missing), Some(ErrorKind::MissingExport));
    assert_eq!(
        kind_of(Files::from([("main.js", "let x; let x;")])),
        Some(ErrorKind::DoubledDeclaration)
    );
    assert_eq!(
        kind_of(Files::from([("main.js", "export { x };")])),
        Some(ErrorKind::UndeclaredExport)
    );
    let mut one = Config::default();
    one.max_modules = 1;
    let two = Files::from([("main.js", "import './a';"), ("a.js", "")]);
    assert_eq!(
        code_of(two, one).unwrap_err().kind(),
        ErrorKind::TooManyModules
    );
    let files = Files::from([("main.js", "")]);
    let twice = Bundler::new(files, Relative).bundle([("one", "main.js"), ("two", "main.js")]);
    assert_eq!(twice.unwrap_err().kind(), ErrorKind::DoubledEntry);
}

#[test]
fn a_text_that_is_no_module_has_a_place() {
    let error = bundled(Files::from([
        ("main.js", "import './a';"),
        ("a.js", "let x;\nx = ;"),
    ]))
    .unwrap_err();
    assert_eq!(
        (error.kind(), error.kind().number(), error.file()),
        (ErrorKind::Syntax, None, Some("a.js"))
    );
    let wrong = error
        .source()
        .and_then(|cause| cause.downcast_ref::<SyntaxError>())
        .unwrap();
    assert_eq!((wrong.line, wrong.column), (2, 5));
}

#[test]
fn a_tree_that_is_too_deep_is_told() {
    let deep: &'static str =
        Box::leak(format!("x = {}1{};", "[".repeat(120), "]".repeat(120)).into_boxed_str());
    assert!(matches!(
        kind_of(Files::from([("main.js", deep)])),
        Some(ErrorKind::TooDeep | ErrorKind::Syntax)
    ));
    let less: &'static str =
        Box::leak(format!("x = {}1{};", "[".repeat(30), "]".repeat(30)).into_boxed_str());
    assert_eq!(
        bundled(Files::from([("main.js", less)])).unwrap(),
        format!("{less}\n")
    );
}

/// A hook that knows one file.
struct Urls;

impl Hook for Urls {
    fn import_meta(&mut self, file: &str) -> Result<Vec<(String, String)>, Cause> {
        match file {
            "main.js" => Ok(vec![("url".to_owned(), "file:///main.js".to_owned())]),
            _ => Err(Cause::from("it has none")),
        }
    }
}

#[test]
fn a_hook_gives_texts_and_its_failure_is_told_last() {
    let with_hook = |files: Files| {
        Bundler::new(files, Relative)
            .with_hook(Urls)
            .bundle([("main", "main.js")])
    };
    let bundles = with_hook(Files::from([("main.js", "use(import.meta.url);")])).unwrap();
    assert!(
        bundles[0].code.contains("file:///main.js"),
        "{}",
        bundles[0].code
    );
    let failing = [
        ("main.js", "import './a';"),
        ("a.js", "use(import.meta.url);"),
    ];
    let error = with_hook(Files::from(failing)).unwrap_err();
    assert_eq!(
        (error.kind(), error.file()),
        (ErrorKind::Hook, Some("a.js"))
    );
    let doubled = [
        ("main.js", "import './a'; let x; let x;"),
        ("a.js", "use(import.meta.url);"),
    ];
    assert_eq!(
        with_hook(Files::from(doubled)).unwrap_err().kind(),
        ErrorKind::DoubledDeclaration
    );
}

#[test]
fn a_party_that_panics_unwinds_and_harms_nothing() {
    let panics = Cell::new(true);
    let load = |file: &str| match file {
        "main.js" => Ok::<_, Cause>("import { x } from './a'; use(x);"),
        _ if panics.get() => panic!("no file for you"),
        _ => Ok("export const x = 1;"),
    };
    let mut bundler = Bundler::new(load, Relative);
    let unwound = catch_unwind(AssertUnwindSafe(|| bundler.bundle([("main", "main.js")])));
    assert!(unwound.is_err());
    panics.set(false);
    let bundles = bundler.bundle([("main", "main.js")]).unwrap();
    assert_eq!(bundles[0].code, "const x = 1;\nuse(x);\n");
}

#[test]
fn threads_make_calls_at_once() {
    let call = |number: usize| {
        let text = format!("export const x = {number};");
        let load = move |file: &str| match file {
            "main.js" => Ok::<_, Cause>("import { x } from './a'; use(x);".to_owned()),
            _ => Ok(text.clone()),
        };
        let mut bundler = Bundler::new(load, Relative);
        (0..50)
            .map(move |_| {
                bundler
                    .bundle([("main", "main.js")])
                    .unwrap()
                    .remove(0)
                    .code
            })
            .collect::<Vec<_>>()
    };
    let codes: Vec<_> = thread::scope(|scope| {
        let calls: Vec<_> = (0..2)
            .map(|number| scope.spawn(move || call(number)))
            .collect();
        calls.into_iter().map(|it| it.join().unwrap()).collect()
    });
    for (number, codes) in codes.iter().enumerate() {
        assert!(codes
            .iter()
            .all(|code| *code == format!("const x = {number};\nuse(x);\n")));
    }
}

#[test]
fn an_error_goes_to_another_thread() {
    fn is_sendable<T: Send + Sync + std::error::Error + 'static>() {}
    is_sendable::<Error>();
}

#[test]
fn externals_stay_and_take_no_files_name() {
    let files = Files::from([
        (
            "main.js",
            "import a from './x.js'; import { b } from './y'; use(a, b);",
        ),
        ("x", "export const b = 1;"),
    ]);
    let resolver = |_: &str, specifier: &str| match specifier {
        "./y" => Ok::<_, Cause>(Target::File("x".to_owned())),
        _ => Ok(Target::External),
    };
    let bundles = Bundler::new(files, resolver)
        .bundle([("main", "main.js")])
        .unwrap();
    assert_eq!(
        bundles[0].code,
        "import { default as a } from \"./x.js\";\nconst b = 1;\nuse(a, b);\n"
    );
}

#[test]
fn settings_are_the_linkers() {
    let mut script = Config::default();
    script.iife = true;
    let code = code_of(Files::from([("main.js", "export const x = 1;")]), script).unwrap();
    assert!(code.starts_with("(function"), "{code}");
    let mut require = Config::default();
    require.require = true;
    let files = Files::from([("main.js", "const a = require('./a'); use(a);")]);
    assert_eq!(
        code_of(files.clone(), require).unwrap_err().kind(),
        ErrorKind::Load
    );
    assert!(bundled(files).unwrap().contains("require"));
}

#[test]
fn a_common_js_module_is_linked() {
    let load = |file: &str| match file {
        "main.js" => Ok::<_, Cause>(Source::module("import { x } from './a'; use(x);")),
        _ => Ok(Source::common_js("exports.x = require('./b').y; return;")),
    };
    let resolve = |_: &str, specifier: &str| match specifier {
        "./a" => Ok::<_, Cause>(Target::File("a.js".to_owned())),
        _ => Ok(Target::External),
    };
    let mut config = Config::default();
    config.require = true;
    let mut bundler = Bundler::new(load, resolve).with_config(config);
    let code = bundler
        .bundle([("main", "main.js")])
        .unwrap()
        .remove(0)
        .code;
    assert!(code.contains("exports.x = require("), "{code}");
}

#[test]
fn paths_are_those_of_folders() {
    let target = |base: &str, specifier: &str| match Relative.resolve(base, specifier) {
        Ok(Target::File(file)) => Some(file),
        _ => None,
    };
    assert_eq!(target("main.js", "./a").as_deref(), Some("a.js"));
    assert_eq!(target("lib/main.js", "../a.mjs").as_deref(), Some("a.mjs"));
    assert_eq!(
        target("/x/y/main.js", "./z/../../a").as_deref(),
        Some("/x/a.js")
    );
    assert_eq!(target("main.js", "../a").as_deref(), Some("../a.js"));
    assert_eq!(target("/main.js", "../a").as_deref(), Some("/a.js"));
    assert_eq!(target("main.js", "fs"), None);
}
