//! Tells the linker where libplacer.a is: in the folder that PLACER_LIB names, or where tests/library.sh writes it.
use std::{env, path::PathBuf};

fn main() {
    println!("cargo:rerun-if-env-changed=PLACER_LIB");
    let folder = match env::var_os("PLACER_LIB") {
        Some(folder) => PathBuf::from(folder),
        None => PathBuf::from(env::var_os("CARGO_MANIFEST_DIR").unwrap()).join("../../target/staticlib"),
    };
    let archive = folder.join("libplacer.a");
    println!("cargo:rerun-if-changed={}", archive.display());
    if !archive.is_file() {
        panic!("no libplacer.a in {}: run `sh tests/library.sh placer`, or set PLACER_LIB", folder.display());
    }
    println!("cargo:rustc-link-search=native={}", folder.display());
    println!("cargo:rustc-link-lib=static=placer");
}
