//! Links the proved library: libabi.a in the folder SEL_LIB_DIR, else where `tools/make-library` writes it.

use std::path::{Path, PathBuf};
use std::{env, process};

fn stop(line: &str) -> ! {
    eprintln!("ipmi-sel: {line}");
    process::exit(1)
}

fn main() {
    println!("cargo:rerun-if-env-changed=SEL_LIB_DIR");
    if env::var("CARGO_CFG_TARGET_ARCH").as_deref() != Ok("x86_64") {
        stop("libabi.a is for x86-64: build with --target x86_64-unknown-linux-gnu (README.md, \"On Arm\")");
    }
    let dir = match env::var_os("SEL_LIB_DIR") {
        Some(dir) => PathBuf::from(dir),
        None => Path::new(&env::var_os("CARGO_MANIFEST_DIR").unwrap()).join("../../target/staticlib"),
    };
    let library = dir.join("libabi.a");
    println!("cargo:rerun-if-changed={}", library.display());
    if !library.is_file() {
        stop(&format!("no {}: make it by `tools/make-library` at the project's root, or say where it is by SEL_LIB_DIR", library.display()));
    }
    println!("cargo:rustc-link-search=native={}", dir.display());
    println!("cargo:rustc-link-lib=static=abi");
}
