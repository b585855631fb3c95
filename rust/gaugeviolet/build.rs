//! Links the static library of the proved crate `screen`, made by `tools/staticlib screen`.

use std::path::Path;
use std::process::exit;

fn main() {
    let manifest = std::env::var("CARGO_MANIFEST_DIR").expect("cargo names the crate's folder");
    // The crate's folder is rust/gaugeviolet of the repository.
    let folder = Path::new(&manifest).join("../../target/staticlib");
    let library = folder.join("libscreen.a");
    println!("cargo:rerun-if-changed=build.rs");
    println!("cargo:rerun-if-changed={}", library.display());
    if !library.is_file() {
        eprintln!(
            "The proved library target/staticlib/libscreen.a is missing: run `tools/staticlib screen` \
             at the top of the repository first."
        );
        exit(1);
    }
    println!("cargo:rustc-link-search=native={}", folder.display());
    println!("cargo:rustc-link-lib=static=screen");
}
