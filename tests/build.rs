//! Links the library under test, but only where the feature `linked` is on.

use std::env;
use std::path::Path;

fn main() {
    println!("cargo:rerun-if-changed=build.rs");
    if env::var_os("CARGO_FEATURE_LINKED").is_none() {
        return;
    }
    let package = env::var("CARGO_MANIFEST_DIR").expect("cargo sets the package folder");
    let folder = Path::new(&package).join("../target/staticlib");
    println!("cargo:rustc-link-search=native={}", folder.display());
    let archive = folder.join("libjagwelu.a");
    println!("cargo:rerun-if-changed={}", archive.display());
    println!("cargo:rustc-link-lib=static=jagwelu");
}
