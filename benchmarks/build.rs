//! Links the archives of the proved calls, which tests/archives.sh has built, one for each crate that is named below.

use std::path::Path;

fn main() {
    let crates = Path::new(env!("CARGO_MANIFEST_DIR")).join("../crates");
    for name in [
        "exports",
        "circuit_exports",
        "flow_exports",
        "any_source_exports",
        "backup_exports",
        "candidate_list_c",
        "dump_exports",
        "log_exports",
    ] {
        let folder = crates.join(name).join("out");
        let archive = folder.join(format!("lib{name}.a"));
        assert!(archive.exists(), "first: tests/archives.sh");
        println!("cargo::rustc-link-search=native={}", folder.display());
        println!("cargo::rerun-if-changed={}", archive.display());
        println!("cargo::rustc-link-lib=static={name}");
    }
}
