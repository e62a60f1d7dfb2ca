//! What each error of the linker tells: its kind, its file, and the name or the specifier in it.
use gutsirava::document::bundles;
use gutsirava::{Bundler, Cause, Config, Error, ErrorKind, Source, Target};
use std::error::Error as _;

/// Sources by the names of their files. One that begins with `// CommonJS` is a CommonJS module.
type Files = &'static [(&'static str, &'static str)];

fn source_of(text: &str) -> Source {
    match text.starts_with("// CommonJS") {
        true => Source::common_js(text),
        false => Source::module(text),
    }
}

// The error of the bundles of these entries, where `./a` is the file `a` and all else is external.
fn error_of(files: Files, entries: &[(&str, &str)], config: Config) -> Error {
    let load = |file: &str| match files.iter().find(|(name, _)| *name == file) {
        Some((_, text)) => Ok(source_of(text)),
        None => Err(Cause::from("there is no such file")),
    };
    let resolve = |_: &str, specifier: &str| match specifier.strip_prefix("./") {
        Some(file) => Ok::<_, Cause>(Target::File(file.to_owned())),
        None => Ok(Target::External),
    };
    let mut bundler = Bundler::new(load, resolve).with_config(config);
    bundler.bundle(entries.iter().copied()).unwrap_err()
}

fn told(error: &Error) -> (ErrorKind, Option<&str>, Option<&str>) {
    (error.kind(), error.file(), error.name())
}

fn with_require() -> Config {
    let mut config = Config::default();
    config.require = true;
    config
}

fn script() -> Config {
    let mut config = Config::default();
    config.iife = true;
    config
}

const MAIN: &[(&str, &str)] = &[("main", "main")];

#[test]
fn errors_of_names_have_the_file_and_the_name() {
    let rows: [(ErrorKind, Files, &str, &str); 8] = [
        (
            ErrorKind::DoubledDeclaration,
            &[("main", "let x; let x;")],
            "main",
            "x",
        ),
        (
            ErrorKind::DoubledExport,
            &[("main", "let x; export { x, x };")],
            "main",
            "x",
        ),
        (
            ErrorKind::UndeclaredExport,
            &[("main", "import './a';"), ("a", "export { x };")],
            "a",
            "x",
        ),
        (
            ErrorKind::MissingExport,
            &[("main", "import { x as y } from './a';"), ("a", "")],
            "main",
            "x",
        ),
        (
            ErrorKind::AmbiguousExport,
            &[
                ("main", "import { x } from './a';"),
                ("a", "export * from './b'; export * from './c';"),
                ("b", "export let x;"),
                ("c", "export let x;"),
            ],
            "main",
            "x",
        ),
        (
            ErrorKind::ExternalStarOnly,
            &[
                ("main", "import { x } from './a';"),
                ("a", "export * from 'fs';"),
            ],
            "main",
            "x",
        ),
        (
            ErrorKind::MissingExport,
            &[("main", "import { '\\n\"é' as y } from './a';"), ("a", "")],
            "main",
            "\n\"é",
        ),
        (
            ErrorKind::MissingExport,
            &[("main", "import { './a.js' as y } from './a';"), ("a", "")],
            "main",
            "./a.js",
        ),
    ];
    for (kind, files, file, name) in rows {
        let error = error_of(files, MAIN, Config::default());
        assert_eq!(told(&error), (kind, Some(file), Some(name)));
        let number = kind.number().unwrap();
        assert_eq!(
            error.to_string(),
            format!("{file}: error {number}: {} '{name}'", kind.name())
        );
        assert!(error.source().is_none());
    }
}

#[test]
fn errors_of_specifiers_have_the_file_and_the_specifier() {
    let rows: [(ErrorKind, Files, Config, &str, &str); 5] = [
        (
            ErrorKind::StarOfCommonJs,
            &[
                ("main", "export * from './a';"),
                ("a", "// CommonJS\nexports.x = require('./b');"),
                ("b", "// CommonJS"),
            ],
            with_require(),
            "main",
            "./a",
        ),
        (
            ErrorKind::RequiredEsModule,
            &[
                ("main", "import './a';"),
                ("a", "// CommonJS\nrequire('./b');"),
                ("b", "export let x;"),
            ],
            with_require(),
            "a",
            "./b",
        ),
        (
            ErrorKind::RequiredEntry,
            &[
                ("main", "import './a';"),
                ("a", "// CommonJS\nrequire('./main');"),
            ],
            with_require(),
            "a",
            "./main",
        ),
        (
            ErrorKind::ExternalUnderIife,
            &[("main", "import { x } from 'fs'; use(x);")],
            script(),
            "main",
            "fs",
        ),
        (
            ErrorKind::ExternalUnderIife,
            &[("main", "import './a';"), ("a", "import '_x/./a';")],
            script(),
            "a",
            "_x/./a",
        ),
    ];
    for (kind, files, config, file, specifier) in rows {
        let error = error_of(files, MAIN, config);
        assert_eq!(told(&error), (kind, Some(file), Some(specifier)));
    }
}

#[test]
fn errors_of_files_have_the_file() {
    let mut one = Config::default();
    one.max_modules = 1;
    let rows: [(ErrorKind, Files, Config, &str); 5] = [
        (
            ErrorKind::TooManyModules,
            &[("main", "import './a';"), ("a", "")],
            one,
            "a",
        ),
        (
            ErrorKind::NamespaceOverExternalStar,
            &[
                ("main", "import * as a from './a'; use(a);"),
                ("a", "export * from 'fs';"),
            ],
            Config::default(),
            "a",
        ),
        (
            ErrorKind::AwaitInCommonJs,
            &[
                ("main", "import b from 'b'; use(b, require('./a'));"),
                ("a", "await 1;"),
            ],
            with_require(),
            "a",
        ),
        (
            ErrorKind::ArgumentsUnderIife,
            &[("main", "use(arguments);")],
            script(),
            "main",
        ),
        (
            ErrorKind::Load,
            &[("main", "import './a';")],
            Config::default(),
            "a",
        ),
    ];
    for (kind, files, config, file) in rows {
        let error = error_of(files, MAIN, config);
        assert_eq!(told(&error), (kind, Some(file), None));
    }
}

#[test]
fn an_entry_that_comes_twice_has_its_file_and_its_name() {
    let twice = [("one", "main"), ("two", "main")];
    let error = error_of(&[("main", "")], &twice, Config::default());
    assert_eq!(
        told(&error),
        (ErrorKind::DoubledEntry, Some("main"), Some("two"))
    );
}

#[test]
fn an_external_that_is_spelled_like_a_file_is_told_as_it_is() {
    let files: Files = &[
        ("main", "import './b'; import { x } from './a.js';"),
        ("b", ""),
    ];
    let resolve = |_: &str, specifier: &str| match specifier {
        "./b" => Ok::<_, Cause>(Target::File("b".to_owned())),
        _ => Ok(Target::External),
    };
    let load = |file: &str| match files.iter().find(|(name, _)| *name == file) {
        Some((_, text)) => Ok(*text),
        None => Err(Cause::from("there is no such file")),
    };
    let mut bundler = Bundler::new(load, resolve).with_config(script());
    let error = bundler.bundle(MAIN.iter().copied()).unwrap_err();
    assert_eq!(
        told(&error),
        (ErrorKind::ExternalUnderIife, Some("main"), Some("./a.js"))
    );
}

#[test]
fn a_documents_errors_are_its_own() {
    let lost = bundles(br#"{"files": {}, "entries": [["out", "lost.js"]]}"#).unwrap_err();
    assert_eq!(told(&lost), (ErrorKind::Load, Some("lost.js"), None));
    let main = r#"{"type":"Module","body":[{"type":"ImportDecl","src":{"type":"Str","value":"x"},"specifiers":[]}]}"#;
    let document =
        format!(r#"{{"files": {{"main.js": {main}}}, "entries": [["out", "main.js"]]}}"#);
    let unresolved = bundles(document.as_bytes()).unwrap_err();
    assert_eq!(
        told(&unresolved),
        (ErrorKind::Resolve, Some("main.js"), Some("x"))
    );
    let none = bundles(b"{}").unwrap_err();
    assert_eq!(told(&none), (ErrorKind::NoDocument, None, None));
    assert_eq!(none.to_string(), "error: NoDocument");
    assert_eq!(bundles(br#"{"files": {}, "entries": []}"#).unwrap(), "[]\n");
}
