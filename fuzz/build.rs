//! Links libFuzzer's runtime, whose place `scripts/fuzz` says.

use std::env;

const RUNTIME: &str = "FUZZER_RUNTIME";

fn main() {
    println!("cargo:rerun-if-env-changed={RUNTIME}");
    if let Ok(runtime) = env::var(RUNTIME) {
        println!("cargo:rustc-link-arg-bins={runtime}");
        println!("cargo:rustc-link-arg-bins=-lstdc++");
    }
}
