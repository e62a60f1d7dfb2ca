//! The linker's documents (`docs/DOCUMENT.md`), where trees are at hand in their JSON form.
use crate::archive;
use crate::error::Error;

/// The bundles that a document asks for: the text of a list with an object for each, as the program `bundle_json` writes
/// it. The file and the name of an error are the document's.
pub fn bundles(document: &[u8]) -> Result<String, Error> {
    let answer = archive::bundle(document);
    match answer.status {
        0 => Ok(answer.text),
        _ => Err(Error::told(&answer.text)),
    }
}
