//! For build scripts: links an archive of proved functions. The prover writes
//! it, cargo can't: where it is missing, the message says what to run.
#![forbid(unsafe_code)]

use std::env;
use std::path::PathBuf;

/// Links the archive of a crate of the repository into the package that is
/// being built, which stands two folders below the repository's root.
pub fn link(library: &str) {
    let archive = format!("lib{library}.a");
    let manifest = env::var("CARGO_MANIFEST_DIR").expect("cargo sets CARGO_MANIFEST_DIR");
    let folder = PathBuf::from(manifest).join("../../target/staticlib");
    let path = folder.join(&archive);
    // Said before any failure, so that a later archive is noticed.
    println!("cargo::rerun-if-changed={}", path.display());

    let architecture = env::var("CARGO_CFG_TARGET_ARCH").unwrap_or_default();
    if architecture != "x86_64" {
        println!("cargo::error={archive} holds x86-64 code, and the target is {architecture}");
        return;
    }
    if !path.is_file() {
        println!(
            "cargo::error=target/staticlib/{archive} is missing: \
             run `tools/archives` at the root of the repository, then cargo again"
        );
        return;
    }
    println!("cargo::rustc-link-search=native={}", folder.display());
    println!("cargo::rustc-link-lib=static={library}");
}
