//! Why there is no bundle.
use crate::json::Json;
use std::error;
use std::fmt;

/// What a loader, a resolver or a hook fails with.
pub type Cause = Box<dyn error::Error + Send + Sync>;

/// Why there is no bundle.
#[derive(Debug)]
pub struct Error {
    kind: ErrorKind,
    file: Option<String>,
    name: Option<String>,
    cause: Option<Cause>,
}

/// The kind of an error. Those with a number are the linker's, in `docs/DOCUMENT.md` under the same names; 6 is not used.
#[derive(Clone, Copy, Debug, PartialEq, Eq, Hash)]
#[non_exhaustive]
pub enum ErrorKind {
    /// The loader failed on a file.
    Load,
    /// The resolver failed on a specifier.
    Resolve,
    /// The hook failed on a file.
    Hook,
    /// There are more modules than may be loaded.
    TooManyModules,
    /// The numbers that tell names apart are used up.
    ContextsUsedUp,
    /// A name is declared twice where that is an error.
    DoubledDeclaration,
    /// A module exports one name twice.
    DoubledExport,
    /// A module exports a name of its own that its top does not bind.
    UndeclaredExport,
    /// An imported name is not exported.
    MissingExport,
    /// An imported name is exported by two `export *`, differently.
    AmbiguousExport,
    /// An imported name may only come from an external module, by `export *`.
    ExternalStarOnly,
    /// There is an `export *` of a CommonJS module.
    StarOfCommonJs,
    /// A namespace object is needed of a module that stars an external one.
    NamespaceOverExternalStar,
    /// There is a `with` statement.
    With,
    /// There is a literal `require` of an ES module.
    RequiredEsModule,
    /// There is a literal `require` of the entry.
    RequiredEntry,
    /// There is an `await` outside functions in a CommonJS module.
    AwaitInCommonJs,
    /// Two entries have one name or one file.
    DoubledEntry,
    /// There is an external import where the bundle is an IIFE.
    ExternalUnderIife,
    /// There is a free `arguments` where the bundle is an IIFE.
    ArgumentsUnderIife,
    /// Memory was refused.
    OutOfMemory,
    /// The text of a file is no module. The error's source is a [`SyntaxError`].
    Syntax,
    /// A tree is deeper than a document may be: 127 levels of JSON.
    TooDeep,
    /// What was handed in as a document is none.
    NoDocument,
}

use ErrorKind::*;

// The numbers and names of the linker's errors.
const NUMBERED: [(u32, ErrorKind, &str); 21] = [
    (1, Load, "Load"),
    (2, Resolve, "Resolve"),
    (3, Hook, "Hook"),
    (4, TooManyModules, "TooManyModules"),
    (5, ContextsUsedUp, "ContextsUsedUp"),
    (7, DoubledDeclaration, "DoubledDeclaration"),
    (8, DoubledExport, "DoubledExport"),
    (9, UndeclaredExport, "UndeclaredExport"),
    (10, MissingExport, "MissingExport"),
    (11, AmbiguousExport, "AmbiguousExport"),
    (12, ExternalStarOnly, "ExternalStarOnly"),
    (13, StarOfCommonJs, "StarOfCommonJs"),
    (14, NamespaceOverExternalStar, "NamespaceOverExternalStar"),
    (15, With, "With"),
    (16, RequiredEsModule, "RequiredEsModule"),
    (17, RequiredEntry, "RequiredEntry"),
    (18, AwaitInCommonJs, "AwaitInCommonJs"),
    (19, DoubledEntry, "DoubledEntry"),
    (20, ExternalUnderIife, "ExternalUnderIife"),
    (21, ArgumentsUnderIife, "ArgumentsUnderIife"),
    (22, OutOfMemory, "OutOfMemory"),
];

impl ErrorKind {
    /// Its number, where it is one of the linker's.
    pub fn number(self) -> Option<u32> {
        NUMBERED
            .iter()
            .find(|(_, kind, _)| *kind == self)
            .map(|(number, _, _)| *number)
    }

    /// Its name.
    pub fn name(self) -> &'static str {
        match self {
            Syntax => "Syntax",
            TooDeep => "TooDeep",
            NoDocument => "NoDocument",
            _ => NUMBERED
                .iter()
                .find(|(_, kind, _)| *kind == self)
                .map_or("", |(_, _, name)| name),
        }
    }

    // Whether the name that an error of this kind has is a specifier.
    pub(crate) fn has_specifier(self) -> bool {
        matches!(
            self,
            Resolve | StarOfCommonJs | RequiredEsModule | RequiredEntry | ExternalUnderIife
        )
    }

    // The kind that a line `error N: Name` tells.
    fn told(line: &str) -> Option<ErrorKind> {
        let (number, name) = line.strip_prefix("error ")?.split_once(": ")?;
        let number = number.parse().ok()?;
        NUMBERED
            .iter()
            .find(|(n, _, word)| *n == number && *word == name)
            .map(|(_, kind, _)| *kind)
    }
}

impl Error {
    pub(crate) fn new(kind: ErrorKind) -> Error {
        Error {
            kind,
            file: None,
            name: None,
            cause: None,
        }
    }

    // What the linker refuses with: a line `error N: Name`, and a line with an object that has the file and the name.
    pub(crate) fn told(text: &str) -> Error {
        let (line, place) = text.split_once('\n').unwrap_or((text, ""));
        let place = Json::read(place).unwrap_or(Json::Null);
        let text_of = |key: &str| place.get(key).and_then(Json::as_str).map(str::to_owned);
        Error {
            file: text_of("file"),
            name: text_of("name"),
            ..Error::new(ErrorKind::told(line).unwrap_or(NoDocument))
        }
    }

    pub(crate) fn at(mut self, file: impl Into<String>) -> Error {
        self.file = Some(file.into());
        self
    }

    pub(crate) fn named(mut self, name: impl Into<String>) -> Error {
        self.name = Some(name.into());
        self
    }

    pub(crate) fn because(mut self, cause: impl Into<Cause>) -> Error {
        self.cause = Some(cause.into());
        self
    }

    /// The kind of error.
    pub fn kind(&self) -> ErrorKind {
        self.kind
    }

    /// The file that is meant, if one is.
    pub fn file(&self) -> Option<&str> {
        self.file.as_deref()
    }

    /// The specifier or the name that is meant in that file, if one is.
    pub fn name(&self) -> Option<&str> {
        self.name.as_deref()
    }
}

impl fmt::Display for Error {
    fn fmt(&self, f: &mut fmt::Formatter<'_>) -> fmt::Result {
        if let Some(file) = &self.file {
            write!(f, "{file}: ")?;
        }
        match self.kind.number() {
            Some(number) => write!(f, "error {number}: {}", self.kind.name())?,
            None => write!(f, "error: {}", self.kind.name())?,
        }
        if let Some(name) = &self.name {
            write!(f, " '{name}'")?;
        }
        Ok(())
    }
}

impl error::Error for Error {
    fn source(&self) -> Option<&(dyn error::Error + 'static)> {
        self.cause
            .as_deref()
            .map(|cause| cause as &(dyn error::Error + 'static))
    }
}

/// What is wrong in the text of a file, and where: lines count from 1, columns from 1 in UTF-16 code units.
#[derive(Clone, Debug, PartialEq, Eq)]
pub struct SyntaxError {
    /// The line.
    pub line: u32,
    /// The column.
    pub column: u32,
    /// What is wrong there.
    pub message: String,
}

impl SyntaxError {
    // What a line `error LINE:COLUMN: what is wrong` tells.
    pub(crate) fn told(line: &str) -> SyntaxError {
        let line = line.trim_end();
        Self::parts(line).unwrap_or(SyntaxError {
            line: 1,
            column: 1,
            message: line.to_owned(),
        })
    }

    fn parts(line: &str) -> Option<SyntaxError> {
        let (place, message) = line.strip_prefix("error ")?.split_once(": ")?;
        let (line, column) = place.split_once(':')?;
        Some(SyntaxError {
            line: line.parse().ok()?,
            column: column.parse().ok()?,
            message: message.to_owned(),
        })
    }
}

impl fmt::Display for SyntaxError {
    fn fmt(&self, f: &mut fmt::Formatter<'_>) -> fmt::Result {
        write!(f, "{}:{}: {}", self.line, self.column, self.message)
    }
}

impl error::Error for SyntaxError {}
