// Included by the build scripts of the oracle, and of `host/compare` and `host/measure`: the original's modules, and how its
// `i2c.rs` is changed in a copy. There `attempt` counts its runs and clears by the sequence that is chosen by name, and `send`
// notes the sample that it first read low.

use std::{
    env, fs,
    path::{Path, PathBuf},
};

/// The original's modules; `probe/<name>.rs` is appended to the changed copy where it exists.
const MODULES: [&str; 4] = ["sync", "hostif", "i2c", "sfp"];

/// What stands once in `i2c.rs`, and what stands in its place in the changed copy.
const CHANGES: [(&str, &str); 3] = [
    (
        "    let mut bus = Bus::new(io, port.family)?;\n",
        "    probe_count();\n    let mut bus = Bus::new(io, port.family)?;\n",
    ),
    ("match bus.clear() {", "match bus.probe_clear() {"),
    (
        "for _ in 0..10 {
            if self.get()? & self.l.sda_in == 0 { acked",
        "for sample in 1..=10 {
            if self.get()? & self.l.sda_in == 0 { probe_heard(sample); acked",
    ),
];

fn text(path: &Path) -> String {
    println!("cargo:rerun-if-changed={}", path.display());
    fs::read_to_string(path).unwrap_or_else(|e| {
        panic!("cannot read {}: {e}; set ORACLE_SRC to the folder of the original", path.display())
    })
}

/// The folder of the original: the one that `ORACLE_SRC` names, else the one beside the repository.
fn original(oracle: &Path) -> PathBuf {
    println!("cargo:rerun-if-env-changed=ORACLE_SRC");
    match env::var_os("ORACLE_SRC") {
        Some(folder) => PathBuf::from(folder),
        None => oracle.join("../../shared/docs/src/src"),
    }
}

fn module(name: &str, body: &str) -> String {
    format!("#[allow(dead_code, clippy::all)]\npub mod {name} {{\n{body}\n}}\n")
}

/// A module of the changed copy, with its probe.
fn changed(oracle: &Path, name: &str, source: &str) -> String {
    let changes = if name == "i2c" { &CHANGES[..] } else { &[] };
    let source = changes.iter().fold(source.to_string(), |source, (from, to)| {
        assert_eq!(source.matches(from).count(), 1, "`i2c.rs` has this once: {from}");
        source.replace(from, to)
    });
    let probe = oracle.join(format!("probe/{name}.rs"));
    let probe = if probe.exists() { text(&probe) } else { String::new() };
    module(name, &format!("{source}\n{probe}"))
}

fn written(name: &str, modules: String) {
    let out = PathBuf::from(env::var_os("OUT_DIR").expect("set by cargo"));
    fs::write(out.join(name), modules).expect("OUT_DIR takes files");
}
