//! Finds the archives of the C entries and of the test entries, for the tests
//! and the benchmark that link them. Where one is missing they say so; nothing
//! else needs it.

use std::path::Path;

/// The archives, each with the condition that it is there.
const ARCHIVES: [(&str, &str); 2] = [
    ("libfenalukki.a", "archive"),
    ("libtesthost.a", "test_archive"),
];

fn main() {
    let folder = Path::new(env!("CARGO_MANIFEST_DIR")).join("../target/staticlib");
    for (name, condition) in ARCHIVES {
        let archive = folder.join(name);
        println!("cargo::rerun-if-changed={}", archive.display());
        println!("cargo::rustc-check-cfg=cfg({condition})");
        if archive.exists() {
            println!("cargo::rustc-cfg={condition}");
            println!("cargo::rustc-link-search=native={}", folder.display());
        }
    }
}
