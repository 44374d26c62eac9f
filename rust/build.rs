//! Links the proved library, librimemagpie.a. It is looked for in target/staticlib, or in the folder
//! that RIMEMAGPIE_LIB_DIR names; a relative folder is taken from the top of the repository.

use std::env;
use std::path::Path;
use std::process::exit;

const LIBRARY: &str = "librimemagpie.a";

fn main() {
    println!("cargo:rerun-if-env-changed=RIMEMAGPIE_LIB_DIR");
    let named = env::var("RIMEMAGPIE_LIB_DIR").unwrap_or("target/staticlib".to_string());
    let folder = Path::new(env!("CARGO_MANIFEST_DIR")).join("..").join(named);
    let library = folder.join(LIBRARY);
    if !library.is_file() {
        eprintln!("The library is not at {}.", library.display());
        eprintln!(
            "Build it first (bash tools/build rimemagpie), or name its folder in RIMEMAGPIE_LIB_DIR."
        );
        exit(1);
    }
    println!("cargo:rerun-if-changed={}", library.display());
    println!("cargo:rustc-link-search=native={}", folder.display());
    println!("cargo:rustc-link-lib=static=rimemagpie");
}
