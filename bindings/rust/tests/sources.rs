//! Source texts that are bundled in one call.
use gutsirava::{bundle_sources, Platform, SourceBundles, SourcesConfig, SourcesError};

type Files<'a> = &'a [(&'a str, &'a str)];

fn bundled(files: Files<'_>, config: &SourcesConfig) -> Result<SourceBundles, SourcesError> {
    bundle_sources(files.iter().copied(), [("out", "main.js")], config)
}

fn code_of(files: Files<'_>) -> String {
    let mut all = bundled(files, &SourcesConfig::default()).unwrap();
    all.bundles.remove(0).code
}

fn error_of(files: Files<'_>) -> SourcesError {
    bundled(files, &SourcesConfig::default()).unwrap_err()
}

#[test]
fn modules_are_found_without_their_endings() {
    let files = [
        (
            "main.js",
            "import { x } from './lib'; import { y } from './lib/y'; use(x, y);",
        ),
        ("lib/index.js", "export const x = 1;"),
        ("lib/y.mjs", "export const y = 2;"),
    ];
    assert_eq!(code_of(&files), "const x = 1;\nconst y = 2;\nuse(x, y);\n");
}

#[test]
fn names_are_paths() {
    let files = [
        ("/app/main.js", "import { x } from '../lib/x.js'; use(x);"),
        ("lib/./x.js", "export const x = 1;"),
    ];
    let all = bundle_sources(files, [("out", "app/main.js")], &SourcesConfig::default()).unwrap();
    assert_eq!(all.bundles[0].code, "const x = 1;\nuse(x);\n");
}

#[test]
fn packages_common_js_and_json_are_bundled() {
    let files = [
        (
            "main.js",
            "import two from 'two'; import { version } from './data.json'; use(two, version);",
        ),
        ("data.json", "{\"version\": \"1.2\"}"),
        (
            "node_modules/two/package.json",
            "{\"main\": \"lib/two.cjs\"}",
        ),
        (
            "node_modules/two/lib/two.cjs",
            "module.exports = 1 + require('./one.js');",
        ),
        ("node_modules/two/lib/one.js", "module.exports = 1;"),
    ];
    let code = code_of(&files);
    assert!(!code.contains("import"), "{code}");
    assert!(code.contains("1.2"), "{code}");
}

#[test]
fn each_entry_has_a_bundle() {
    let files = [
        ("a.js", "import './c'; a();"),
        ("b.js", "import './c'; b();"),
        ("c.js", "c(); export {};"),
    ];
    let entries = [("b", "b.js"), ("a", "a.js")];
    let all = bundle_sources(files, entries, &SourcesConfig::default()).unwrap();
    let told: Vec<_> = all
        .bundles
        .iter()
        .map(|it| (it.name.as_str(), it.code.as_str()))
        .collect();
    assert_eq!(told, [("b", "c();\nb();\n"), ("a", "c();\na();\n")]);
}

#[test]
fn a_script_leaves_what_it_exports_under_its_name() {
    let mut config = SourcesConfig::default();
    config.iife = true;
    config.platform = Platform::Browser;
    config.global_name = Some("App".to_owned());
    let all = bundled(&[("main.js", "export const x = 1;")], &config).unwrap();
    assert!(
        all.bundles[0].code.starts_with("var App = (function"),
        "{}",
        all.bundles[0].code
    );
}

#[test]
fn what_is_external_stays() {
    let mut config = SourcesConfig::default();
    config.external_modules = vec!["react".to_owned()];
    let files = [(
        "main.js",
        "import React from 'react'; import fs from 'fs'; use(React, fs);",
    )];
    let code = bundled(&files, &config).unwrap().bundles.remove(0).code;
    assert!(code.contains("from \"react\""), "{code}");
    assert!(code.contains("from \"fs\""), "{code}");
}

#[test]
fn a_cycle_is_a_warning() {
    let files = [
        ("main.js", "import './a'; main();"),
        ("a.js", "import './main'; a();"),
    ];
    let all = bundled(&files, &SourcesConfig::default()).unwrap();
    assert_eq!(all.bundles[0].code, "a();\nmain();\n");
    assert_eq!(all.warnings.len(), 1);
    assert!(!all.warnings[0].is_error);
    assert!(
        all.warnings[0].text.contains("circular"),
        "{}",
        all.warnings[0]
    );
}

#[test]
fn errors_have_places() {
    let error = error_of(&[
        ("main.js", "import './lost';\nimport './a';"),
        ("a.js", "let x;\n  x = ;"),
    ]);
    let places: Vec<_> = error
        .messages()
        .iter()
        .map(|message| message.place.as_ref().unwrap().to_string())
        .collect();
    assert_eq!(places, ["main.js:1:8", "a.js:2:7"]);
    assert_eq!(error.to_string().lines().count(), 2);
    assert!(error.messages().iter().all(|message| message.is_error));
}

#[test]
fn a_name_that_is_not_exported_is_told() {
    let error = error_of(&[
        ("main.js", "import { y } from './a';\nuse(y);"),
        ("a.js", "export let x;"),
    ]);
    let message = &error.messages()[0];
    let place = message.place.as_ref().unwrap();
    assert_eq!(
        (place.file.as_str(), place.line, place.column),
        ("main.js", Some(1), Some(10))
    );
    assert!(message.text.contains("no export \"y\""), "{message}");
    assert_eq!(message.notes[0].place.as_ref().unwrap().to_string(), "a.js");
}

#[test]
fn an_entry_that_is_not_there_is_an_error() {
    let error = error_of(&[("other.js", "")]);
    assert!(error.to_string().contains("main.js"), "{error}");
    let twice = bundle_sources(
        [("main.js", "")],
        [("one", "main.js"), ("two", "./main.js")],
        &SourcesConfig::default(),
    );
    assert!(twice.is_err());
}

#[test]
fn texts_are_taken_as_they_are() {
    let files = [("main.js", "use('\\u{1f600}', 'é', \"\u{2028}\", `\\0`);")];
    let code = code_of(&files);
    assert!(code.contains('é'), "{code}");
}

#[test]
fn an_error_goes_to_another_thread() {
    fn is_sendable<T: Send + Sync + std::error::Error + 'static>() {}
    is_sendable::<SourcesError>();
}
