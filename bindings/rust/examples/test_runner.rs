//! A test runner: `test_runner FILE.js..` bundles each test file with all that it imports and runs it by Node, and tells
//! which failed. A test is a function that the file exports, called `test` and something.
use gutsirava::{Bundler, Cause, Hook, Relative, Source};
use std::io::Write;
use std::path::Path;
use std::process::{Command, ExitCode, Stdio};
use std::{env, fs};

/// `import.meta` as Node has it.
struct Urls;

impl Hook for Urls {
    fn import_meta(&mut self, file: &str) -> Result<Vec<(String, String)>, Cause> {
        let path = fs::canonicalize(file)?.display().to_string();
        let url = format!("file://{path}");
        Ok(vec![("filename".to_owned(), path), ("url".to_owned(), url)])
    }
}

/// What is put behind a bundle: it calls the tests, and tells of each.
const RUNNER: &str = "
for (const [name, test] of Object.entries(tests)) {
  if (!name.startsWith('test')) continue;
  try {
    await test();
    console.log(`ok     ${name}`);
  } catch (error) {
    process.exitCode = 1;
    console.log(`FAILED ${name}: ${error.message}`);
  }
}
";

// The text of a program that runs the tests of a file. Its entry is a module of our own, over that file.
fn program_of(file: &str) -> Result<String, gutsirava::Error> {
    let name = Path::new(file)
        .file_name()
        .unwrap_or_default()
        .to_string_lossy();
    let entry = format!("import * as tests from './{name}';{RUNNER}");
    let runner = Path::new(file)
        .with_file_name("runner of tests.js")
        .display()
        .to_string();
    let load = |path: &str| {
        if path == runner {
            return Ok(Source::module(entry.as_str()));
        }
        fs::read_to_string(path).map(Source::module)
    };
    let mut bundler = Bundler::new(load, Relative).with_hook(Urls);
    let bundles = bundler.bundle([(file, runner.as_str())])?;
    Ok(bundles.into_iter().map(|bundle| bundle.code).collect())
}

// Runs the tests of a file. True where all of them passed.
fn passes(file: &str) -> Result<bool, Cause> {
    println!("{file}");
    let program = program_of(file)?;
    let mut node = Command::new("node")
        .args(["--input-type=module", "-"])
        .stdin(Stdio::piped())
        .spawn()?;
    if let Some(mut input) = node.stdin.take() {
        input.write_all(program.as_bytes())?;
    }
    Ok(node.wait()?.success())
}

fn main() -> ExitCode {
    let mut failed = 0;
    for file in env::args().skip(1) {
        let is_passed = passes(&file).unwrap_or_else(|error| {
            println!("FAILED {error}");
            false
        });
        failed += i32::from(!is_passed);
    }
    println!("{failed} files failed");
    ExitCode::from(u8::from(failed > 0))
}
