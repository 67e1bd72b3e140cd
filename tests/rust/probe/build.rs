//! Tells the linker where libtest_probe.a is: in the folder that PLACER_LIB names, beside libplacer.a.
use std::{env, path::PathBuf};

fn main() {
    println!("cargo:rerun-if-env-changed=PLACER_LIB");
    let folder = PathBuf::from(env::var_os("PLACER_LIB").expect("PLACER_LIB, the folder that libtest_probe.a is in"));
    println!("cargo:rerun-if-changed={}", folder.join("libtest_probe.a").display());
    println!("cargo:rustc-link-search=native={}", folder.display());
    println!("cargo:rustc-link-lib=static=test_probe");
}
