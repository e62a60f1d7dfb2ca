//! What a bundler asks: a loader, a resolver and a hook.
use crate::error::Cause;
use std::collections::{BTreeMap, HashMap};
use std::hash::BuildHasher;

/// Gives the text of each file.
pub trait Load {
    /// The source of a file. It is asked once for each file of a call.
    fn load(&mut self, file: &str) -> Result<Source, Cause>;
}

/// Says where specifiers lead.
pub trait Resolve {
    /// Where a specifier leads from the file `base`. It is asked once for each specifier of a file.
    fn resolve(&mut self, base: &str, specifier: &str) -> Result<Target, Cause>;
}

/// Gives the properties of `import.meta`.
pub trait Hook {
    /// Names and texts for the `import.meta` of a file. It is asked once for each file that speaks of it.
    fn import_meta(&mut self, file: &str) -> Result<Vec<(String, String)>, Cause>;
}

/// The source of a module.
#[derive(Clone, Debug, PartialEq, Eq)]
pub struct Source {
    pub(crate) text: String,
    pub(crate) is_common_js: bool,
}

impl Source {
    /// An ECMAScript module.
    pub fn module(text: impl Into<String>) -> Source {
        Source {
            text: text.into(),
            is_common_js: false,
        }
    }

    /// A CommonJS module: the body of a function, in strict code. Its calls of `require` load modules under
    /// [`Config::require`](crate::Config::require).
    pub fn common_js(text: impl Into<String>) -> Source {
        Source {
            text: text.into(),
            is_common_js: true,
        }
    }
}

/// An ECMAScript module.
impl From<String> for Source {
    fn from(text: String) -> Source {
        Source::module(text)
    }
}

/// An ECMAScript module.
impl From<&str> for Source {
    fn from(text: &str) -> Source {
        Source::module(text)
    }
}

/// Where a specifier leads.
#[derive(Clone, Debug, PartialEq, Eq)]
pub enum Target {
    /// To this file.
    File(String),
    /// To none that is bundled: its imports stay as they are, wherever this specifier stands.
    External,
}

/// A closure loads.
impl<F, S, E> Load for F
where
    F: FnMut(&str) -> Result<S, E>,
    S: Into<Source>,
    E: Into<Cause>,
{
    fn load(&mut self, file: &str) -> Result<Source, Cause> {
        self(file).map(S::into).map_err(E::into)
    }
}

/// A closure resolves.
impl<F, E> Resolve for F
where
    F: FnMut(&str, &str) -> Result<Target, E>,
    E: Into<Cause>,
{
    fn resolve(&mut self, base: &str, specifier: &str) -> Result<Target, Cause> {
        self(base, specifier).map_err(E::into)
    }
}

fn held(source: Option<Source>) -> Result<Source, Cause> {
    source.ok_or_else(|| Cause::from("there is no such file"))
}

/// Files that are held in memory, by their names.
impl<T: Clone + Into<Source>> Load for BTreeMap<&str, T> {
    fn load(&mut self, file: &str) -> Result<Source, Cause> {
        held(self.get(file).cloned().map(T::into))
    }
}

/// Files that are held in memory, by their names.
impl<T: Clone + Into<Source>, S: BuildHasher> Load for HashMap<String, T, S> {
    fn load(&mut self, file: &str) -> Result<Source, Cause> {
        held(self.get(file).cloned().map(T::into))
    }
}

/// No properties.
impl Hook for () {
    fn import_meta(&mut self, _file: &str) -> Result<Vec<(String, String)>, Cause> {
        Ok(Vec::new())
    }
}

/// A resolver of paths with `/`: a specifier that begins with `./` or `../` leads to the file of that path from the folder
/// of the file that has it, with `.js` behind it where it ends in none of `.js`, `.mjs` and `.cjs`. Any other is external.
#[derive(Clone, Copy, Debug, Default, PartialEq, Eq)]
pub struct Relative;

impl Resolve for Relative {
    fn resolve(&mut self, base: &str, specifier: &str) -> Result<Target, Cause> {
        if !specifier.starts_with("./") && !specifier.starts_with("../") {
            return Ok(Target::External);
        }
        let mut parts: Vec<&str> = base.split('/').collect();
        parts.pop();
        for part in specifier.split('/') {
            match part {
                "." | "" => {}
                ".." => climb(&mut parts),
                _ => parts.push(part),
            }
        }
        let path = parts.join("/");
        let is_script = [".js", ".mjs", ".cjs"]
            .iter()
            .any(|ending| path.ends_with(ending));
        Ok(Target::File(if is_script { path } else { path + ".js" }))
    }
}

// To the folder above: out of the last part, or further up where none is left. Nothing is above the root.
fn climb(parts: &mut Vec<&str>) {
    match parts.last() {
        Some(&"") => {}
        None | Some(&"..") => parts.push(".."),
        Some(_) => {
            parts.pop();
        }
    }
}
