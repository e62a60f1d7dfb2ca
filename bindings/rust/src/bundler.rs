//! The bundler.
use crate::archive;
use crate::document;
use crate::error::Error;
use crate::graph::Graph;
use crate::json::Json;
use crate::party::{Hook, Load, Resolve};

/// Settings of a bundler.
#[derive(Clone, Debug, PartialEq, Eq)]
#[non_exhaustive]
pub struct Config {
    /// Whether a call `require('text')` of a `require` that nothing binds loads a module. Without it such a call stays.
    pub require: bool,
    /// Whether a bundle is a script, a function's call that returns the exports, in place of a module.
    pub iife: bool,
    /// Whether modules that form a cycle stand in the order in which they run by ECMA-262, else by what they need.
    pub in_standard_order: bool,
    /// How many modules may be loaded in all.
    pub max_modules: u32,
}

impl Default for Config {
    fn default() -> Config {
        Config {
            require: false,
            iife: false,
            in_standard_order: true,
            max_modules: u32::MAX,
        }
    }
}

/// A bundle of one entry.
#[derive(Clone, Debug, PartialEq, Eq)]
#[non_exhaustive]
pub struct Bundle {
    /// What it is.
    pub kind: BundleKind,
    /// The number of its entry's file, as the linker counts files.
    pub id: String,
    /// Its text.
    pub code: String,
}

/// What a bundle is.
#[derive(Clone, Debug, PartialEq, Eq)]
#[non_exhaustive]
pub enum BundleKind {
    /// The bundle of an entry of this name.
    Named {
        /// The entry's name.
        name: String,
    },
}

/// Bundles modules that a loader, a resolver and a hook give.
pub struct Bundler<L, R, H = ()> {
    loader: L,
    resolver: R,
    hook: H,
    config: Config,
}

impl<L: Load, R: Resolve> Bundler<L, R> {
    /// A bundler of the settings to start from, under which `import.meta` has no properties.
    pub fn new(loader: L, resolver: R) -> Bundler<L, R> {
        Bundler {
            loader,
            resolver,
            hook: (),
            config: Config::default(),
        }
    }
}

impl<L: Load, R: Resolve, H: Hook> Bundler<L, R, H> {
    /// The same with other settings.
    pub fn with_config(self, config: Config) -> Bundler<L, R, H> {
        Bundler { config, ..self }
    }

    /// The same with another hook.
    pub fn with_hook<G: Hook>(self, hook: G) -> Bundler<L, R, G> {
        Bundler {
            loader: self.loader,
            resolver: self.resolver,
            hook,
            config: self.config,
        }
    }

    /// The bundles of these entries, each a name and a file, in their order.
    ///
    /// Files are loaded in the linker's order: those of the entries, then each file's requests behind those that were met.
    /// Each file is loaded once, and each specifier of a file is resolved once. Where a loader or a resolver fails nothing
    /// is asked behind it, and what it failed with is the error's source. Of several errors the first is told in the order
    /// of `docs/DOCUMENT.md`, but that a text which is no module, and a tree that is too deep, are told as they are met,
    /// and a hook's failure last.
    pub fn bundle<N, F>(
        &mut self,
        entries: impl IntoIterator<Item = (N, F)>,
    ) -> Result<Vec<Bundle>, Error>
    where
        N: Into<String>,
        F: Into<String>,
    {
        let entries: Vec<(String, String)> = entries
            .into_iter()
            .map(|(name, file)| (name.into(), file.into()))
            .collect();
        let Bundler {
            loader,
            resolver,
            hook,
            config,
        } = self;
        let mut graph = Graph::gather(loader, resolver, hook, config, &entries)?;
        let document = graph.document(config, &entries);
        let bundles = document::bundles(document.as_bytes());
        let bundles = bundles.map_err(|refusal| graph.error(refusal))?;
        match graph.hook_failure() {
            Some(failure) => Err(failure),
            None => bundles_of(&bundles),
        }
    }
}

// The bundles that the linker's answer has.
fn bundles_of(answer: &str) -> Result<Vec<Bundle>, Error> {
    let answer = Json::read(answer).unwrap_or(Json::Null);
    answer
        .as_list()
        .unwrap_or_default()
        .iter()
        .map(bundle_of)
        .collect()
}

fn bundle_of(bundle: &Json) -> Result<Bundle, Error> {
    let text_of = |key: &str| {
        bundle
            .get(key)
            .and_then(Json::as_str)
            .unwrap_or_default()
            .to_owned()
    };
    let module = bundle.get("module").unwrap_or(&Json::Null);
    let printed = archive::text(&module.to_string());
    if printed.status != 0 {
        return Err(Error::told(&printed.text));
    }
    Ok(Bundle {
        kind: BundleKind::Named {
            name: text_of("name"),
        },
        id: text_of("id"),
        code: printed.text,
    })
}
