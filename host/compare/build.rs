//! Wraps the original's files as modules of two generated files: as they are, and changed as the oracle changes them, with its
//! probes.

include!("../../oracle/changes.rs");

fn main() {
    let manifest = PathBuf::from(env::var_os("CARGO_MANIFEST_DIR").expect("set by cargo"));
    let oracle = manifest.join("../../oracle");
    let folder = original(&oracle);
    // As seen from `host/measure` too, whose build script this is as well.
    for file in ["../compare/build.rs", "../../oracle/changes.rs", "../../oracle/probe"] {
        println!("cargo:rerun-if-changed={file}");
    }
    let sources = MODULES.map(|name| (name, text(&folder.join(format!("{name}.rs")))));
    written("original.rs", sources.each_ref().map(|(name, source)| module(name, source)).concat());
    written("changed.rs", sources.each_ref().map(|(name, source)| changed(&oracle, name, source)).concat());
}
