//! Finds the board's static library. It is x86-64 code, written by `tools/staticlib` to target/staticlib; on another machine the
//! calls are handed on to an emulated process (`tools/x86.py bridge`, to target/bridge). BOARD_LIB_DIR names another folder.

use std::path::{Path, PathBuf};
use std::time::SystemTime;

fn changed(file: &Path) -> Option<SystemTime> {
    file.metadata().and_then(|data| data.modified()).ok()
}

fn main() {
    println!("cargo:rerun-if-env-changed=BOARD_LIB_DIR");
    if std::env::var_os("CARGO_FEATURE_LIBRARY").is_none() {
        return;
    }
    let top = PathBuf::from(std::env::var_os("CARGO_MANIFEST_DIR").unwrap()).join("..");
    let written = top.join("target/staticlib/libboard.a");
    let bridged = std::env::var("CARGO_CFG_TARGET_ARCH").unwrap() != "x86_64";
    let folder = match std::env::var_os("BOARD_LIB_DIR") {
        Some(folder) => PathBuf::from(folder),
        None if bridged => top.join("target/bridge"),
        None => top.join("target/staticlib"),
    };
    let library = folder.join("libboard.a");
    println!("cargo:rerun-if-changed={}", library.display());
    println!("cargo:rerun-if-changed={}", written.display());
    let make = if bridged { "`tools/staticlib`, then `tools/x86.py bridge`" } else { "`tools/staticlib`" };
    if !library.exists() {
        panic!(
            "\n\n{} is missing.\nMake it with {make}, name its folder in BOARD_LIB_DIR,\n\
             or try the tests on the independent board alone with --no-default-features.\n",
            library.display()
        );
    }
    if folder == top.join("target/bridge") && changed(&written) > changed(&library) {
        panic!("\n\n{} is older than the board's library: run `tools/x86.py bridge`.\n", library.display());
    }
    println!("cargo:rustc-link-search=native={}", folder.canonicalize().unwrap().display());
    println!("cargo:rustc-link-lib=static=board");
}
