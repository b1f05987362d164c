//! Finds `libccsds123.a`: in the folder that `CCSDS123_LIB_DIR` names, else where the repository builds it, else by pkg-config.

use std::env;
use std::path::{Path, PathBuf};
use std::process::Command;

const FILE: &str = "libccsds123.a";

fn main() {
    println!("cargo:rerun-if-env-changed=CCSDS123_LIB_DIR");
    println!("cargo:rerun-if-env-changed=PKG_CONFIG_PATH");
    let folder = match env::var_os("CCSDS123_LIB_DIR") {
        Some(named) => PathBuf::from(named),
        None => built()
            .or_else(installed)
            .unwrap_or_else(|| panic!("there is no {FILE}: build it with make lib, or install it, or let CCSDS123_LIB_DIR name its folder")),
    };
    if !folder.join(FILE).is_file() {
        panic!("{} holds no {FILE}", folder.display());
    }
    println!("cargo:rerun-if-changed={}", folder.join(FILE).display());
    println!("cargo:rustc-link-search=native={}", folder.display());
    println!("cargo:rustc-link-lib=static=ccsds123");
}

/// The folder where the repository builds the library, if it did.
fn built() -> Option<PathBuf> {
    let here = env::var_os("CARGO_MANIFEST_DIR")?;
    let folder = Path::new(&here).join("../../build/lib");
    folder.join(FILE).is_file().then_some(folder)
}

/// The folder that pkg-config names.
fn installed() -> Option<PathBuf> {
    let said = Command::new("pkg-config").args(["--variable=libdir", "ccsds123"]).output().ok()?;
    let folder = PathBuf::from(String::from_utf8(said.stdout).ok()?.trim());
    folder.join(FILE).is_file().then_some(folder)
}
