//! The program `bundle_json`, by the library: a document on standard input, bundles on standard output.
use gutsirava::document::bundles;
use std::io::{self, Read, Write};
use std::process::ExitCode;

fn main() -> ExitCode {
    let mut document = Vec::new();
    if io::stdin().read_to_end(&mut document).is_err() {
        eprintln!("error: input");
        return ExitCode::from(2);
    }
    let error = match bundles(&document) {
        Ok(text) => match io::stdout().write_all(text.as_bytes()) {
            Ok(()) => return ExitCode::SUCCESS,
            Err(_) => return ExitCode::from(3),
        },
        Err(error) => error.kind(),
    };
    match error.number() {
        Some(number) => {
            eprintln!("error {number}: {}", error.name());
            ExitCode::from(1)
        }
        None => {
            eprintln!("error: document");
            ExitCode::from(2)
        }
    }
}
