//! A linker of ECMAScript modules in one process: the linker, the reader and the printer of JavaScript of Gutsirava,
//! which are proved in Rattle, as a static library.
//!
//! ```
//! use std::collections::BTreeMap;
//!
//! # fn main() -> Result<(), gutsirava::Error> {
//! let files = BTreeMap::from([("main.js", "import { x } from './a'; use(x);"), ("a.js", "export const x = 1;")]);
//! let mut bundler = gutsirava::Bundler::new(files, gutsirava::Relative);
//! let bundles = bundler.bundle([("main", "main.js")])?;
//! assert_eq!(bundles[0].code, "const x = 1;\nuse(x);\n");
//! # Ok(())
//! # }
//! ```
//!
//! [`bundle_sources`] bundles texts that are all at hand, with packages, CommonJS modules and JSON among them.
//!
//! A [`Bundler`] asks three parties, each a trait: [`Load`] gives the text of a file, [`Resolve`] says where a specifier
//! leads, and [`Hook`] gives the properties of `import.meta`. Closures load and resolve, maps load, and [`Relative`]
//! resolves paths. Each entry gives one [`Bundle`], or all of them one [`Error`].
//!
//! Calls share nothing: several threads may make one each. A party that panics unwinds through [`Bundler::bundle`], which
//! holds nothing of the library's then.
#![warn(missing_docs)]
#![deny(unsafe_op_in_unsafe_fn)]

mod archive;
mod bundler;
pub mod document;
mod error;
mod graph;
mod json;
mod party;
mod sources;

pub use bundler::{Bundle, BundleKind, Bundler, Config};
pub use error::{Cause, Error, ErrorKind, SyntaxError};
pub use party::{Hook, Load, Relative, Resolve, Source, Target};
pub use sources::{
    bundle_sources, Message, Note, Place, Platform, SourceBundle, SourceBundles, SourcesConfig,
    SourcesError,
};

/// The page for users of this crate, whose blocks are tests.
#[cfg(doctest)]
#[doc = include_str!("../../../docs/RUST.md")]
struct Page;
