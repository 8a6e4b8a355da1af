//! Checks the originals' hashes, then writes the one file that is not an original: prover/
//! stacked_reduction.rs followed by peek.rs, which reads the prover's private work buffers.
use std::{env, fs, path::Path, process::Command};

fn main() {
    println!("cargo:rerun-if-changed=original/crates");
    println!("cargo:rerun-if-changed=peek.rs");
    println!("cargo:rerun-if-changed=../ORIGINAL.sha256");
    let crate_dir = env::var("CARGO_MANIFEST_DIR").unwrap();
    let original = Path::new(&crate_dir).join("original");
    assert!(
        original.exists(),
        "backend/original is missing: run the build script"
    );
    check_hashes(&original, &Path::new(&crate_dir).join("../ORIGINAL.sha256"));
    write_peek_module(&original);
}

fn check_hashes(original: &Path, list: &Path) {
    let status = Command::new("sha256sum")
        .args(["--quiet", "--check"])
        .arg(list)
        .current_dir(original)
        .status()
        .expect("sha256sum runs");
    assert!(
        status.success(),
        "the originals differ from ORIGINAL.sha256"
    );
}

/// A `#[path]` takes a literal only, so the module's declaration is generated beside its text.
fn write_peek_module(original: &Path) {
    let out = env::var("OUT_DIR").unwrap();
    let text = Path::new(&out).join("stacked_reduction_and_peek.rs");
    let source = original.join("crates/stark-backend/src/prover/stacked_reduction.rs");
    let with_peek = fs::read_to_string(source).unwrap() + &fs::read_to_string("peek.rs").unwrap();
    fs::write(&text, with_peek).unwrap();
    let declaration = format!("#[path = {text:?}]\npub mod stacked_reduction_and_peek;\n");
    fs::write(Path::new(&out).join("peek_module.rs"), declaration).unwrap();
}
