//! Links `libquointrowel.a`: from the folder that `QUOINTROWEL_LIB_DIR` names (`PREFIX/lib` after `./install PREFIX`), else from
//! this repository's `target/staticlib`, where `tools/archive` puts it. The archive is for x86-64: for any other machine
//! the crate is only checked, and nothing is linked.

use std::env;
use std::path::PathBuf;

fn main() {
    println!("cargo:rerun-if-env-changed=QUOINTROWEL_LIB_DIR");
    if env::var("CARGO_CFG_TARGET_ARCH").as_deref() != Ok("x86_64") {
        return;
    }
    let folder = match env::var_os("QUOINTROWEL_LIB_DIR") {
        Some(folder) => PathBuf::from(folder),
        None => PathBuf::from(env::var_os("CARGO_MANIFEST_DIR").unwrap()).join("../../target/staticlib"),
    };
    let archive = folder.join("libquointrowel.a");
    assert!(archive.is_file(), "{} is missing: tools/archive makes it", archive.display());
    println!("cargo:rerun-if-changed={}", archive.display());
    println!("cargo:rustc-link-search=native={}", folder.display());
    println!("cargo:rustc-link-lib=static=quointrowel");
}
