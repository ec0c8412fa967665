//! Finds libvierskof.a: in the folder that `VIERSKOF_LIB_DIR` names, or in the repository's `crates/vierskof/out`, where `rt lib` makes it.

use std::ffi::OsStr;
use std::io::ErrorKind;
use std::path::{Path, PathBuf};
use std::process::{Command, Output, Stdio};
use std::{env, fs, io};

/// Lines of the kit's output that are told when it fails.
const LAST: usize = 12;

fn main() {
    println!("cargo::rerun-if-env-changed=VIERSKOF_LIB_DIR");
    let named = env::var_os("VIERSKOF_LIB_DIR").filter(|folder| !folder.is_empty());
    match named.map_or_else(made, |folder| watched(absolute(&folder)?)) {
        Ok(folder) => {
            println!("cargo::rustc-link-search=native={}", folder.display());
            println!("cargo::rustc-link-lib=static=vierskof");
        }
        Err(cause) => {
            for line in cause.lines() {
                println!("cargo::error={line}");
            }
        }
    }
}

/// A folder as whoever calls cargo means it. Cargo runs this script in the package's folder, but hands the caller's `PWD` on.
fn absolute(folder: &OsStr) -> Result<PathBuf, String> {
    if Path::new(folder).is_absolute() {
        return Ok(PathBuf::from(folder));
    }
    println!("cargo::rerun-if-env-changed=PWD");
    let caller = env::var_os("PWD").ok_or("a relative VIERSKOF_LIB_DIR needs PWD")?;
    Ok(Path::new(&caller).join(folder))
}

/// Has `rt` make the library from the proved code; where there is no `rt`, takes the library that is there.
fn made() -> Result<PathBuf, String> {
    let package = env::var_os("CARGO_MANIFEST_DIR").expect("cargo sets CARGO_MANIFEST_DIR");
    let root = Path::new(&package).join("../..");
    let proved = root.join("crates/vierskof");
    if !proved.is_dir() {
        return Err("VIERSKOF_LIB_DIR has to name the folder of libvierskof.a: outside its repository it can't be made".to_owned());
    }
    for source in sources(&root).map_err(|error| format!("crates: {error}"))? {
        println!("cargo::rerun-if-changed={}", source.display());
    }
    let folder = proved.join("out");
    let mut rt = Command::new("rt");
    rt.arg("lib").current_dir(&proved);
    match rt.stdin(Stdio::null()).output() {
        Ok(output) if output.status.success() => kept(&found(folder)?),
        Ok(output) => Err(failed(&output, &proved)),
        Err(error) if error.kind() == ErrorKind::NotFound => watched(folder).map_err(|cause| {
            format!("{cause}\nrt, the command of the Rattle kit, is not on the PATH")
        }),
        Err(error) => Err(format!("`rt lib` could not be run: {error}")),
    }
}

/// What the library is proved and made from: of each crate what is not `out`, which `rt` itself writes.
fn sources(root: &Path) -> io::Result<Vec<PathBuf>> {
    let mut found = vec![root.join("crates.txt")];
    for proved in fs::read_dir(root.join("crates"))? {
        let proved = proved?.path();
        found.extend(["src", "specs", "proofs"].map(|part| proved.join(part)));
    }
    found.retain(|source| source.exists());
    Ok(found)
}

/// Why the kit made no library: the end of what it said.
fn failed(output: &Output, proved: &Path) -> String {
    let said = [output.stdout.as_slice(), &output.stderr].concat();
    let said = String::from_utf8_lossy(&said);
    let lines: Vec<&str> = said.lines().collect();
    let last = &lines[lines.len().saturating_sub(LAST)..];
    let (status, proved) = (output.status, proved.display());
    let first = format!("`rt lib` failed in {proved} ({status}):");
    [&[first.as_str()], last].concat().join("\n")
}

/// The library that was made, where `rt ci` doesn't take it away again.
fn kept(folder: &Path) -> Result<PathBuf, String> {
    let own = PathBuf::from(env::var_os("OUT_DIR").expect("cargo sets OUT_DIR"));
    let library = own.join("libvierskof.a");
    match fs::copy(folder.join("libvierskof.a"), &library) {
        Ok(_) => Ok(own),
        Err(error) => Err(format!("{}: {error}", library.display())),
    }
}

/// A library that somebody else makes, perhaps anew. One that this script makes is newer than the script's own begin, and cargo would run it forever.
fn watched(folder: PathBuf) -> Result<PathBuf, String> {
    let library = folder.join("libvierskof.a");
    println!("cargo::rerun-if-changed={}", library.display());
    found(folder)
}

fn found(folder: PathBuf) -> Result<PathBuf, String> {
    if folder.join("libvierskof.a").is_file() {
        Ok(folder)
    } else {
        Err(format!(
            "no libvierskof.a in {}: `rt lib` makes it in crates/vierskof/out, and VIERSKOF_LIB_DIR names another folder",
            folder.display()
        ))
    }
}
