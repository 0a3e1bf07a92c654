//! Links libdesk.a from the folder in LANECOCKLE_LIB, else from
//! target/staticlib of the repository.

use std::env;
use std::path::PathBuf;

fn main() {
    let folder = match env::var_os("LANECOCKLE_LIB") {
        Some(folder) => PathBuf::from(folder),
        None => {
            let here = PathBuf::from(env::var_os("CARGO_MANIFEST_DIR").expect("set by cargo"));
            here.join("../target/staticlib")
        }
    };
    let folder = folder.canonicalize().unwrap_or(folder);
    println!("cargo:rerun-if-env-changed=LANECOCKLE_LIB");
    println!(
        "cargo:rerun-if-changed={}",
        folder.join("libdesk.a").display()
    );
    println!("cargo:rustc-link-search=native={}", folder.display());
    println!("cargo:rustc-link-lib=static=desk");
}
