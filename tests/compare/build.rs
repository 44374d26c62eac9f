//! Finds libdigest_steps.a and libtimed_blocks.a, which tests/digests.rs and tests/blocks.rs
//! link: in target/staticlib, or in the folder that RIMEMAGPIE_LIB_DIR names; a relative folder is
//! taken from the top of the repository.

use std::env;
use std::path::Path;
use std::process::exit;

/// The crates whose libraries are linked.
const CRATES: [&str; 2] = ["digest_steps", "timed_blocks"];

fn main() {
    println!("cargo:rerun-if-env-changed=RIMEMAGPIE_LIB_DIR");
    let named = env::var("RIMEMAGPIE_LIB_DIR").unwrap_or("target/staticlib".to_string());
    let folder = Path::new(env!("CARGO_MANIFEST_DIR"))
        .join("../..")
        .join(named);
    for name in CRATES {
        let library = folder.join(format!("lib{name}.a"));
        if !library.is_file() {
            eprintln!("The library is not at {}.", library.display());
            eprintln!("Build it first: bash tools/build {name}");
            exit(1);
        }
        println!("cargo:rerun-if-changed={}", library.display());
    }
    println!("cargo:rustc-link-search=native={}", folder.display());
}
