//! Makes calls of one document, which stands on standard input: `calls COUNT`.
use std::io::{self, Read};

fn main() -> io::Result<()> {
    let count = std::env::args()
        .nth(1)
        .and_then(|word| word.parse().ok())
        .unwrap_or(1);
    let mut document = Vec::new();
    io::stdin().read_to_end(&mut document)?;
    for _ in 0..count {
        let bundles = gutsirava::document::bundles(&document);
        assert!(bundles.is_ok(), "{bundles:?}");
    }
    Ok(())
}
