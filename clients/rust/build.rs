//! Links `libreshqobi.a` from the folder that RESHQOBI_LIB names, relative to
//! this crate, or from target/panel of the project.

use std::env;
use std::path::Path;

const FOLDER: &str = "../../target/panel";

fn main() {
    let here = env::var("CARGO_MANIFEST_DIR").expect("cargo sets it");
    let folder = env::var("RESHQOBI_LIB").unwrap_or_else(|_| FOLDER.to_string());
    let folder = Path::new(&here).join(folder);
    let archive = folder.join("libreshqobi.a");
    println!("cargo:rerun-if-env-changed=RESHQOBI_LIB");
    println!("cargo:rerun-if-changed={}", archive.display());
    println!("cargo:rustc-link-search=native={}", folder.display());
    println!("cargo:rustc-link-lib=static=reshqobi");
}
