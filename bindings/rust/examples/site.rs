//! A step of a site builder: `site PAGES OUT` bundles the script of each page, `PAGES/NAME/main.js`, as a script
//! `OUT/NAME.js`, all of them in one call, so that what they share is read once.
use gutsirava::{BundleKind, Bundler, Cause, Config, Relative};
use std::path::{Path, PathBuf};
use std::{env, fs};

// The pages of a folder, by their names.
fn pages(folder: &Path) -> Result<Vec<(String, String)>, Cause> {
    let mut pages = Vec::new();
    for page in fs::read_dir(folder)? {
        let script = page?.path().join("main.js");
        if let (Some(name), true) = (script.parent().and_then(Path::file_name), script.is_file()) {
            pages.push((
                name.to_string_lossy().into_owned(),
                script.display().to_string(),
            ));
        }
    }
    pages.sort();
    Ok(pages)
}

fn main() -> Result<(), Cause> {
    let words: Vec<PathBuf> = env::args_os().skip(1).map(PathBuf::from).collect();
    let [folder, out] = words.as_slice() else {
        return Err(Cause::from("usage: site PAGES OUT"));
    };
    let mut config = Config::default();
    config.iife = true;
    let mut bundler =
        Bundler::new(|file: &str| fs::read_to_string(file), Relative).with_config(config);
    fs::create_dir_all(out)?;
    for bundle in bundler.bundle(pages(folder)?)? {
        let BundleKind::Named { name } = &bundle.kind else {
            continue;
        };
        fs::write(out.join(name).with_extension("js"), bundle.code)?;
        println!("{name}.js");
    }
    Ok(())
}
