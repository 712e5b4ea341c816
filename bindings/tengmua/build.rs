//! Links `libcabi.a`, which `tools/build cabi` writes. TENGMUA_LIB names another folder for it.

use std::env;
use std::path::PathBuf;

fn main() {
    let beside = PathBuf::from(env::var("CARGO_MANIFEST_DIR").expect("set by cargo"));
    let folder = match env::var_os("TENGMUA_LIB") {
        Some(folder) => PathBuf::from(folder),
        None => beside.join("../../target/staticlib"),
    };
    let library = folder.join("libcabi.a");
    if !library.exists() {
        panic!("{} is missing: run `tools/build cabi` first", library.display());
    }
    println!("cargo:rustc-link-search=native={}", folder.display());
    println!("cargo:rustc-link-lib=static=cabi");
    println!("cargo:rerun-if-changed={}", library.display());
    println!("cargo:rerun-if-env-changed=TENGMUA_LIB");
}
