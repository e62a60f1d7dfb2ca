//! Source texts to bundles, with all that they need in memory.
use crate::archive;
use crate::json::Json;
use std::error;
use std::fmt;

/// Where bundles are to run.
#[derive(Clone, Copy, Debug, PartialEq, Eq)]
pub enum Platform {
    /// In Node.
    Node,
    /// In a browser: packages are taken by their field `browser`, and scripts have no `require`.
    Browser,
}

/// Settings of [`bundle_sources`].
#[derive(Clone, Debug, PartialEq, Eq)]
#[non_exhaustive]
pub struct SourcesConfig {
    /// Where the bundles are to run.
    pub platform: Platform,
    /// Whether a bundle is a script, a function's call, in place of a module.
    pub iife: bool,
    /// The name, words with dots between, under which a script leaves what its entry exports.
    pub global_name: Option<String>,
    /// Whether the modules of a cycle run in the order of ECMA-262, else each statement behind what it needs.
    pub in_standard_order: bool,
    /// Specifiers, and paths that begin with `./`, that stay imports. One `*` stands for any text.
    pub external_modules: Vec<String>,
}

impl Default for SourcesConfig {
    fn default() -> SourcesConfig {
        SourcesConfig {
            platform: Platform::Node,
            iife: false,
            global_name: None,
            in_standard_order: true,
            external_modules: Vec::new(),
        }
    }
}

/// The bundles of source texts.
#[derive(Clone, Debug, PartialEq, Eq)]
#[non_exhaustive]
pub struct SourceBundles {
    /// One for each entry, in their order.
    pub bundles: Vec<SourceBundle>,
    /// What may not be meant, as a cycle of imports.
    pub warnings: Vec<Message>,
}

/// The bundle of one entry.
#[derive(Clone, Debug, PartialEq, Eq)]
#[non_exhaustive]
pub struct SourceBundle {
    /// The entry's name.
    pub name: String,
    /// Its text.
    pub code: String,
}

/// What is told of source texts.
#[derive(Clone, Debug, PartialEq, Eq)]
#[non_exhaustive]
pub struct Message {
    /// Whether it is an error, else a warning.
    pub is_error: bool,
    /// What is wrong.
    pub text: String,
    /// Where.
    pub place: Option<Place>,
    /// What else belongs to it, as the other place of an ambiguous export.
    pub notes: Vec<Note>,
}

/// What belongs to a message.
#[derive(Clone, Debug, PartialEq, Eq)]
#[non_exhaustive]
pub struct Note {
    /// What is there.
    pub text: String,
    /// Where.
    pub place: Option<Place>,
}

/// A place in a file: of a line and a column, or the file alone.
#[derive(Clone, Debug, PartialEq, Eq)]
#[non_exhaustive]
pub struct Place {
    /// The file.
    pub file: String,
    /// The line, from 1 on.
    pub line: Option<u32>,
    /// The column, from 1 on, in characters.
    pub column: Option<u32>,
}

/// Why source texts have no bundles: at least one error, and what is told beside it.
#[derive(Clone, Debug, PartialEq, Eq)]
pub struct SourcesError {
    messages: Vec<Message>,
}

impl SourcesError {
    /// All that is told, errors and warnings, in the order in which they were found.
    pub fn messages(&self) -> &[Message] {
        &self.messages
    }
}

impl error::Error for SourcesError {}

/// Writes a line for each error.
impl fmt::Display for SourcesError {
    fn fmt(&self, f: &mut fmt::Formatter<'_>) -> fmt::Result {
        let errors = self.messages.iter().filter(|message| message.is_error);
        for (number, message) in errors.enumerate() {
            write!(f, "{}{message}", if number == 0 { "" } else { "\n" })?;
        }
        Ok(())
    }
}

/// Writes `main.js:1:5: error: what is wrong`.
impl fmt::Display for Message {
    fn fmt(&self, f: &mut fmt::Formatter<'_>) -> fmt::Result {
        if let Some(place) = &self.place {
            write!(f, "{place}: ")?;
        }
        let word = if self.is_error { "error" } else { "warning" };
        write!(f, "{word}: {}", self.text)
    }
}

/// Writes `main.js:1:5`, or `main.js`.
impl fmt::Display for Place {
    fn fmt(&self, f: &mut fmt::Formatter<'_>) -> fmt::Result {
        f.write_str(&self.file)?;
        match (self.line, self.column) {
            (Some(line), Some(column)) => write!(f, ":{line}:{column}"),
            _ => Ok(()),
        }
    }
}

/// Bundles source texts as the command `gutsirava` bundles files (`docs/COMMAND.md`): imports find files without their
/// endings, folders, JSON, CommonJS modules, and packages under `node_modules`, as far as they are among `files`.
///
/// `files` are names and texts, and `entries` names of bundles and of files. A name is a path, and one without `/` in front
/// is the same with it.
pub fn bundle_sources<N, T, E, F>(
    files: impl IntoIterator<Item = (N, T)>,
    entries: impl IntoIterator<Item = (E, F)>,
    config: &SourcesConfig,
) -> Result<SourceBundles, SourcesError>
where
    N: Into<String>,
    T: Into<String>,
    E: Into<String>,
    F: Into<String>,
{
    let files = files
        .into_iter()
        .map(|(name, text)| (name.into(), Json::text(text)));
    let entries = entries
        .into_iter()
        .map(|(name, file)| Json::List(vec![Json::text(name), Json::text(file)]));
    let request = Json::object([
        ("config", settings(config)),
        ("files", Json::Object(files.collect())),
        ("entries", Json::List(entries.collect())),
    ]);
    let answer = archive::bundle_sources(request.to_string().as_bytes());
    let status = answer.status;
    let told = Json::read(&answer.text).unwrap_or(Json::Null);
    let messages = list_of(&told, "messages", message);
    match status {
        0 => Ok(SourceBundles {
            bundles: list_of(&told, "bundles", bundle),
            warnings: messages,
        }),
        _ => Err(SourcesError { messages }),
    }
}

fn settings(config: &SourcesConfig) -> Json {
    let externals = config.external_modules.iter().map(Json::text);
    let word = |is_second: bool, words: [&str; 2]| Json::text(words[usize::from(is_second)]);
    let mut settings = Json::object([
        ("module", word(config.iife, ["Es", "Iife"])),
        (
            "order",
            word(config.in_standard_order, ["Needs", "Standard"]),
        ),
        (
            "platform",
            word(config.platform == Platform::Browser, ["Node", "Browser"]),
        ),
        ("external_modules", Json::List(externals.collect())),
    ]);
    if let Some(name) = &config.global_name {
        settings.put("global_name", Json::text(name));
    }
    settings
}

// What the objects of a list stand for.
fn list_of<T>(object: &Json, key: &str, read: impl Fn(&Json) -> T) -> Vec<T> {
    let list = object.get(key).and_then(Json::as_list).unwrap_or_default();
    list.iter().map(read).collect()
}

fn text_of(object: &Json, key: &str) -> String {
    object
        .get(key)
        .and_then(Json::as_str)
        .unwrap_or_default()
        .to_owned()
}

fn bundle(object: &Json) -> SourceBundle {
    SourceBundle {
        name: text_of(object, "name"),
        code: text_of(object, "code"),
    }
}

fn message(object: &Json) -> Message {
    Message {
        is_error: text_of(object, "severity") == "error",
        text: text_of(object, "text"),
        place: place(object),
        notes: list_of(object, "notes", |note| Note {
            text: text_of(note, "text"),
            place: place(note),
        }),
    }
}

fn place(object: &Json) -> Option<Place> {
    let number_of = |key: &str| match object.get(key) {
        Some(Json::Number(text)) => text.parse().ok(),
        _ => None,
    };
    Some(Place {
        file: object.get("file").and_then(Json::as_str)?.to_owned(),
        line: number_of("line"),
        column: number_of("column"),
    })
}
