//! A thousand calls in one process, of bundles and of errors: `thousand [COUNT]`.
use gutsirava::{bundle_sources, Bundler, Relative, SourcesConfig};
use std::collections::BTreeMap;

fn main() -> Result<(), gutsirava::Error> {
    let count = std::env::args()
        .nth(1)
        .and_then(|word| word.parse().ok())
        .unwrap_or(1000);
    let files = BTreeMap::from([
        ("main.js", "import { x } from './a'; import * as b from './b'; console.log(x, b, import.meta.url);"),
        ("a.js", "export const x = 1; export * from './b';"),
        ("b.js", "import { x } from './a'; export const y = () => x;"),
        ("wrong.js", "import { z } from './a';"),
    ]);
    let sources = [
        (
            "main.js",
            "import two from 'two'; import d from './d.json'; export default [two, d];",
        ),
        ("d.json", "{\"x\": [1, 2]}"),
        (
            "node_modules/two/index.js",
            "module.exports = require('./one') + 1;",
        ),
        ("node_modules/two/one.js", "exports.x = 1;"),
        (
            "wrong.js",
            "import { y } from './main'; import './lost'; x = ;",
        ),
    ];
    let config = SourcesConfig::default();
    let mut bundler = Bundler::new(files, Relative);
    for _ in 0..count / 4 {
        assert_eq!(bundler.bundle([("main", "main.js")])?.len(), 1);
        assert!(bundler.bundle([("wrong", "wrong.js")]).is_err());
        assert!(bundle_sources(sources, [("main", "main.js")], &config).is_ok());
        assert!(bundle_sources(sources, [("wrong", "wrong.js")], &config).is_err());
    }
    println!("{count} calls");
    Ok(())
}
