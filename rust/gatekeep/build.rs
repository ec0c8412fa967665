//! Finds the original's published files and declares them as this crate's modules.

use std::env;
use std::fmt::Write as _;
use std::fs;
use std::path::{Path, PathBuf};

/// The original's files, each a module of this crate.
const MODULES: [&str; 6] = [
    "decision",
    "evaluate",
    "facts",
    "identity",
    "partial",
    "policy_model",
];

fn main() {
    println!("cargo::rerun-if-env-changed=GATEKEEP_SRC");
    let checkout = checkout();
    let files = MODULES.map(|module| (module, source(&checkout, module)));
    for (_, path) in &files {
        println!("cargo::rerun-if-changed={}", path.display());
    }
    if files.iter().all(|(_, path)| path.is_file()) {
        declare(&files);
    } else {
        // This directive fails the build with one line, where a panic would print many.
        println!(
            "cargo::error=no gatekeep in {}: set GATEKEEP_SRC to a checkout of plethu/gatekeep \
             at 4acf26c4c1 (the folder that holds crates/gatekeep/src)",
            checkout.display()
        );
    }
}

/// The folder that `GATEKEEP_SRC` names, or else the one beside the repository.
/// A relative path begins at the repository's root.
fn checkout() -> PathBuf {
    let package = env::var_os("CARGO_MANIFEST_DIR").expect("cargo sets CARGO_MANIFEST_DIR");
    let named = env::var_os("GATEKEEP_SRC").filter(|value| !value.is_empty());
    let folder = Path::new(&package)
        .join("../..")
        .join(named.unwrap_or_else(|| "../shared/docs/src".into()));
    folder.canonicalize().unwrap_or(folder)
}

fn source(checkout: &Path, module: &str) -> PathBuf {
    let file = Path::new("crates/gatekeep/src").join(module);
    checkout.join(file.with_extension("rs"))
}

/// Writes the module declarations that `src/lib.rs` includes.
fn declare(files: &[(&str, PathBuf)]) {
    let mut text = String::new();
    for (module, path) in files {
        writeln!(
            text,
            "#[path = {path:?}]\nmod {module};\npub use {module}::*;"
        )
        .expect("a string takes what is written");
    }
    let out = PathBuf::from(env::var_os("OUT_DIR").expect("cargo sets OUT_DIR"));
    fs::write(out.join("modules.rs"), text).expect("OUT_DIR can be written");
}
