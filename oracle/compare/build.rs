//! Finds the static library that the comparison links, and an earlier one for the speed.

use std::env;
use std::fs;
use std::path::{Path, PathBuf};
use std::process::Command;

fn main() {
    println!("cargo:rerun-if-env-changed=FEEL_LIB_DIR");
    println!("cargo:rerun-if-env-changed=FEEL_BEFORE_DIR");
    println!("cargo:rerun-if-changed=build.rs");
    println!("cargo:rustc-check-cfg=cfg(feel_before, feel_before_strict, feel_before_table)");
    if env::var_os("CARGO_FEATURE_SELF_CHECK").is_some() {
        return;
    }
    let dir = match env::var_os("FEEL_LIB_DIR") {
        Some(dir) => PathBuf::from(dir),
        None => folder("CARGO_MANIFEST_DIR").join("../../crates/feel/out"),
    };
    let library = dir.join("libfeel.a");
    println!("cargo:rerun-if-changed={}", library.display());
    assert!(
        library.exists(),
        "{} is not there: run `rt lib` in crates/feel, or set FEEL_LIB_DIR, \
         or use `--features self-check`",
        library.display()
    );
    println!("cargo:rustc-link-search=native={}", dir.display());
    println!("cargo:rustc-link-lib=static=feel");
    if let Some(dir) = env::var_os("FEEL_BEFORE_DIR") {
        link_before(&PathBuf::from(dir).join("libfeel.a"));
    }
}

/// A folder that cargo names.
fn folder(name: &str) -> PathBuf {
    PathBuf::from(env::var_os(name).expect("set by cargo"))
}

/// Links the earlier library too. Every symbol that it defines gets the prefix `before_`, so that
/// none is there twice; what it needs from elsewhere, such as memcpy, keeps its name.
fn link_before(library: &Path) {
    println!("cargo:rerun-if-changed={}", library.display());
    assert!(
        library.exists(),
        "{} of FEEL_BEFORE_DIR is not there",
        library.display()
    );
    let out = folder("OUT_DIR");
    let symbols = run(Command::new("nm")
        .args(["--defined-only", "--extern-only", "--format=posix"])
        .arg(library));
    // A line of a symbol starts with its name; a line that ends in a colon names a member.
    let lines = symbols.lines().filter(|line| !line.ends_with(':'));
    let names = lines.filter_map(|line| line.split(' ').next());
    let renamed: String = names
        .filter(|name| !name.is_empty())
        .map(|name| format!("{name} before_{name}\n"))
        .collect();
    assert!(
        renamed.contains(" before_feel_"),
        "{} defines no function feel_..",
        library.display()
    );
    let list = out.join("before.txt");
    fs::write(&list, renamed).unwrap_or_else(|error| panic!("{}: {error}", list.display()));
    run(Command::new("objcopy")
        .arg(format!("--redefine-syms={}", list.display()))
        .arg(library)
        .arg(out.join("libfeel_before.a")));
    println!("cargo:rustc-link-search=native={}", out.display());
    println!("cargo:rustc-link-lib=static=feel_before");
    println!("cargo:rustc-cfg=feel_before");
    if symbols.contains("feel_strict_") {
        println!("cargo:rustc-cfg=feel_before_strict");
    }
    if symbols.contains("feel_table_") {
        println!("cargo:rustc-cfg=feel_before_table");
    }
}

/// What a command prints.
fn run(command: &mut Command) -> String {
    let output = command
        .output()
        .unwrap_or_else(|error| panic!("{command:?}: {error}"));
    assert!(
        output.status.success(),
        "{command:?}: {}",
        String::from_utf8_lossy(&output.stderr)
    );
    String::from_utf8_lossy(&output.stdout).into_owned()
}
