//! Finds the archive: in the folder TWIN_LIB_DIR, or where `tools/build lent` writes it.

use std::env;
use std::path::{Path, PathBuf};

fn main() {
    let target = (
        env::var("CARGO_CFG_TARGET_ARCH"),
        env::var("CARGO_CFG_TARGET_OS"),
    );
    if target != (Ok("x86_64".into()), Ok("linux".into())) {
        panic!("the archive is for x86-64 Linux alone");
    }
    let folder = env::var_os("TWIN_LIB_DIR").map_or_else(usual, PathBuf::from);
    let archive = folder.join("liblent.a");
    println!("cargo:rerun-if-env-changed=TWIN_LIB_DIR");
    println!("cargo:rerun-if-changed={}", archive.display());
    if !archive.is_file() {
        panic!(
            "{} is missing: 'tools/build lent' writes it; TWIN_LIB_DIR names another folder",
            archive.display()
        );
    }
    println!("cargo:rustc-link-search=native={}", folder.display());
    println!("cargo:rustc-link-lib=static=lent");
}

fn usual() -> PathBuf {
    Path::new(env!("CARGO_MANIFEST_DIR")).join("../../target/staticlib")
}
