//! Wraps the original's files, changed as `changes.rs` has it, as modules of one generated file, each followed by its probe:
//! functions that call the private ones.

include!("changes.rs");

fn main() {
    let oracle = PathBuf::from(env::var_os("CARGO_MANIFEST_DIR").expect("set by cargo"));
    let folder = original(&oracle);
    for file in ["build.rs", "changes.rs", "probe"] {
        println!("cargo:rerun-if-changed={file}");
    }
    let modules = MODULES.map(|name| changed(&oracle, name, &text(&folder.join(format!("{name}.rs")))));
    written("original.rs", modules.concat());
}
