//! Links the proved static library, libmirvashol.a, from the folder that MIRVASHOL_LIB names, or else from target/native of this repository.

use std::path::{Path, PathBuf};

fn main() {
    println!("cargo:rerun-if-env-changed=MIRVASHOL_LIB");
    let usual = || Path::new(env!("CARGO_MANIFEST_DIR")).join("../../target/native");
    let named = std::env::var_os("MIRVASHOL_LIB")
        .map_or_else(usual, PathBuf::from)
        .join("libmirvashol.a");
    let Ok(archive) = named.canonicalize() else {
        panic!(
            "{} is not there: 'tools/native-lib mirvashol' makes it, and MIRVASHOL_LIB may name its folder",
            named.display()
        );
    };
    println!("cargo:rerun-if-changed={}", archive.display());
    println!(
        "cargo:rustc-link-search=native={}",
        archive.parent().unwrap_or(&archive).display()
    );
    println!("cargo:rustc-link-lib=static=mirvashol");
    println!("cargo:rustc-env=MIRVASHOL_ARCHIVE={}", archive.display());
}
