//! Finds the proved static library, and tells cargo to link with it: libdesk.a, as the project writes it, or
//! liblanecockle.a, as it is installed.

use std::env;
use std::path::{Path, PathBuf};
use std::process::exit;

/// The library's names, as a linker has them.
const NAMES: [&str; 2] = ["desk", "lanecockle"];

/// The folder that LANECOCKLE_LIB names; else those beside this crate, in a release archive and in the project.
fn folders() -> Vec<PathBuf> {
    if let Some(folder) = env::var_os("LANECOCKLE_LIB") {
        return vec![PathBuf::from(folder)];
    }
    let crate_folder = env::var_os("CARGO_MANIFEST_DIR").expect("cargo sets it");
    ["../lib", "../../target/staticlib"].iter().map(|folder| Path::new(&crate_folder).join(folder)).collect()
}

/// The file of a library in a folder.
fn file(folder: &Path, name: &str) -> PathBuf {
    folder.join(format!("lib{name}.a"))
}

fn main() {
    println!("cargo:rerun-if-env-changed=LANECOCKLE_LIB");
    let folders = folders();
    let mut places = folders.iter().flat_map(|folder| NAMES.map(|name| (folder, name)));
    match places.find(|(folder, name)| file(folder, name).is_file()) {
        Some((folder, name)) => {
            println!("cargo:rerun-if-changed={}", file(folder, name).display());
            println!("cargo:rustc-link-search=native={}", folder.display());
            println!("cargo:rustc-link-lib=static={name}");
        }
        None => {
            let looked: Vec<String> = folders.iter().map(|folder| folder.display().to_string()).collect();
            eprintln!("lanecockle: there is no libdesk.a or liblanecockle.a in {}.", looked.join(" or "));
            eprintln!("Write it with `callers/library`, or name its folder in LANECOCKLE_LIB.");
            exit(1);
        }
    }
}
