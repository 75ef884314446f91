//! Finds the static library that the crate links.

use std::env;
use std::path::PathBuf;

fn main() {
    println!("cargo:rerun-if-env-changed=FEEL_LIB_DIR");
    println!("cargo:rerun-if-changed=build.rs");
    if env::var_os("CARGO_FEATURE_UNLINKED").is_some() {
        return;
    }
    let dir = match env::var_os("FEEL_LIB_DIR") {
        Some(dir) => PathBuf::from(dir),
        None => PathBuf::from(env::var_os("CARGO_MANIFEST_DIR").expect("set by cargo"))
            .join("../../crates/feel/out"),
    };
    let library = dir.join("libfeel.a");
    println!("cargo:rerun-if-changed={}", library.display());
    assert!(
        library.exists(),
        "{} is not there: run `rt lib` in crates/feel, or set FEEL_LIB_DIR to \
         the folder that has it (an absolute path)",
        library.display()
    );
    println!("cargo:rustc-link-search=native={}", dir.display());
    println!("cargo:rustc-link-lib=static=feel");
}
