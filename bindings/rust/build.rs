//! Finds the archive `libgutsirava_c.a`, or says how to make it.
use std::env;
use std::path::{Path, PathBuf};
use std::process::exit;

const ARCHIVE: &str = "libgutsirava_c.a";

fn main() {
    println!("cargo:rerun-if-env-changed=GUTSIRAVA_ARCHIVE");
    println!("cargo:rerun-if-env-changed=GUTSIRAVA_HEAP");
    let top = top();
    let archive = given("GUTSIRAVA_ARCHIVE").or_else(|| made(&top));
    let heap = given("GUTSIRAVA_HEAP").or_else(kit_heap);
    let files = [archive, heap].map(|file| file.filter(|it| it.is_file()));
    let [Some(archive), Some(heap)] = files else {
        eprintln!("{}", help(&top));
        exit(1);
    };
    // The archive calls the heap of the other one, so that comes behind.
    for file in [&archive, &heap] {
        let folder = file.parent().unwrap_or(Path::new("."));
        let name = file.file_name().unwrap_or_default().to_string_lossy();
        println!("cargo:rerun-if-changed={}", file.display());
        println!("cargo:rustc-link-search=native={}", folder.display());
        println!("cargo:rustc-link-lib=static:+verbatim={name}");
    }
}

// The top of the repository, two folders above the crate.
fn top() -> PathBuf {
    let here = PathBuf::from(env::var_os("CARGO_MANIFEST_DIR").unwrap_or_default());
    here.ancestors()
        .nth(2)
        .map_or(here.clone(), Path::to_path_buf)
}

// A file that is named in the environment, whether it is there or not.
fn given(name: &str) -> Option<PathBuf> {
    env::var_os(name).map(PathBuf::from)
}

// The archive that was proved, else the one that `bridge/build --library` makes before any proof.
fn made(top: &Path) -> Option<PathBuf> {
    ["crates/gutsirava_c/out", "bridge/out"]
        .iter()
        .map(|folder| top.join(folder).join(ARCHIVE))
        .find(|file| file.is_file())
}

// The kit's three functions of the heap, over the C library's. The kit is where its command `rt` is.
fn kit_heap() -> Option<PathBuf> {
    let path = env::var_os("PATH")?;
    let command = env::split_paths(&path)
        .map(|folder| folder.join("rt"))
        .find(|file| file.is_file())?;
    let kit = command
        .canonicalize()
        .ok()?
        .parent()?
        .parent()?
        .to_path_buf();
    Some(kit.join("c/liblibc_c.a"))
}

fn help(top: &Path) -> String {
    format!(
        "gutsirava: there is no {ARCHIVE} to link, or no liblibc_c.a of Rattle's kit.\n\
         `bridge/build --library` in {top} makes the first in some minutes, and with\n\
         --proved it proves it. The kit, whose command `rt` has to be on the PATH, has the\n\
         second as c/liblibc_c.a. GUTSIRAVA_ARCHIVE and GUTSIRAVA_HEAP may name both files.",
        top = top.display()
    )
}
