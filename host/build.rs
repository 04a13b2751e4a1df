//! Links the archive that `rt lib` writes in `crates/host`: from the folder that `SULFRYK_LIB` names, else from `crates/host/out`.

use std::{env, path::PathBuf};

fn main() {
    let manifest = PathBuf::from(env::var_os("CARGO_MANIFEST_DIR").expect("set by cargo"));
    let folder = match env::var_os("SULFRYK_LIB") {
        Some(folder) => PathBuf::from(folder),
        None => manifest.join("../crates/host/out"),
    };
    let archive = folder.join("libhost.a");
    if !archive.exists() {
        println!("cargo:warning=there is no {}; `rt lib` in crates/host writes it", archive.display());
    }
    println!("cargo:rerun-if-env-changed=SULFRYK_LIB");
    println!("cargo:rerun-if-changed={}", archive.display());
    println!("cargo:rustc-link-search=native={}", folder.display());
    println!("cargo:rustc-link-lib=static=host");
}
