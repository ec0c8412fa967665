//! The build script by itself: where it takes the library from, and what it says where there is none.

use std::fs;
use std::os::unix::fs::PermissionsExt;
use std::path::{Path, PathBuf};
use std::process::Command;

/// A folder of a test's own, with the build script compiled in it.
struct Place {
    folder: PathBuf,
}

impl Place {
    fn new(name: &str) -> Self {
        let folder = Path::new(env!("CARGO_TARGET_TMPDIR")).join(name);
        let _ = fs::remove_dir_all(&folder);
        for part in ["built", "tools"] {
            fs::create_dir_all(folder.join(part)).expect("a folder");
        }
        let compiled = Command::new("rustc")
            .args(["--edition", "2024", "-o"])
            .arg(folder.join("script"))
            .arg(concat!(env!("CARGO_MANIFEST_DIR"), "/build.rs"))
            .status();
        assert!(compiled.expect("rustc").success());
        Self { folder }
    }

    fn path(&self, name: &str) -> String {
        self.folder.join(name).display().to_string()
    }

    fn write(&self, name: &str, text: &str) {
        let path = self.folder.join(name);
        fs::create_dir_all(path.parent().expect("a folder")).expect("a folder");
        fs::write(path, text).expect("a file");
    }

    /// A kit's command that does this.
    fn kit(&self, script: &str) {
        self.write("tools/rt", &format!("#!/bin/sh\n{script}\n"));
        let mode = fs::Permissions::from_mode(0o755);
        fs::set_permissions(self.folder.join("tools/rt"), mode).expect("a program");
    }

    /// What the script says as the package of a repository in this folder, called from `from`.
    fn said(&self, from: &str, library: Option<&str>) -> String {
        let package = self.folder.join("rust/vierskof");
        fs::create_dir_all(&package).expect("a folder");
        let mut script = Command::new(self.folder.join("script"));
        script
            .current_dir(&package)
            .env_clear()
            .env("CARGO_MANIFEST_DIR", &package)
            .env("OUT_DIR", self.folder.join("built"))
            .env("PATH", format!("{}:/bin", self.path("tools")))
            .env("PWD", self.folder.join(from));
        if let Some(library) = library {
            script.env("VIERSKOF_LIB_DIR", library);
        }
        let output = script.output().expect("the script runs");
        assert!(output.status.success());
        String::from_utf8(output.stdout).expect("text")
    }
}

#[test]
fn a_relative_folder_begins_where_the_caller_stands() {
    let place = Place::new("relative");
    place.write("here/lib/libvierskof.a", "");
    let search = format!(
        "cargo::rustc-link-search=native={}\n",
        place.path("here/lib")
    );
    assert!(place.said("here", Some("lib")).contains(&search));
    assert!(
        place
            .said("", Some(&place.path("here/lib")))
            .contains(&search)
    );
    let missing = place.said("", Some("lib"));
    let error = format!("cargo::error=no libvierskof.a in {}", place.path("lib"));
    assert!(missing.contains(&error), "{missing}");
    assert!(!missing.contains("rustc-link"), "{missing}");
}

#[test]
fn a_build_that_made_no_archive_says_why() {
    let place = Place::new("failing");
    let outside = place.said("", None);
    assert!(
        outside.contains("cargo::error=VIERSKOF_LIB_DIR has to name"),
        "{outside}"
    );

    // No sources in it: rt refuses any outside the crates of the repository around.
    fs::create_dir_all(place.folder.join("crates/vierskof")).expect("a folder");
    let none = place.said("", None);
    assert!(
        none.contains("cargo::error=rt, the command of the Rattle kit, is not on the PATH"),
        "{none}"
    );
    assert!(none.contains("cargo::error=no libvierskof.a in "), "{none}");

    let last = "rt: the library calls did not build, so nothing above it was checked";
    place.kit(&format!(
        "echo 'logic=not-proved'; echo '{last}' >&2; exit 1"
    ));
    let refused = place.said("", None);
    for line in ["logic=not-proved", last] {
        assert!(
            refused.contains(&format!("cargo::error={line}\n")),
            "{refused}"
        );
    }

    place.kit("exit 0");
    let silent = place.said("", None);
    assert!(
        silent.contains("cargo::error=no libvierskof.a in "),
        "{silent}"
    );

    place.kit("[ $1 = lib ] && mkdir -p out && touch out/libvierskof.a");
    let made = place.said("", None);
    assert!(
        made.contains("cargo::rustc-link-lib=static=vierskof"),
        "{made}"
    );
    assert!(!made.contains("cargo::error"), "{made}");
    // Linked where `rt ci` doesn't take it away, and watched nowhere.
    let search = format!("cargo::rustc-link-search=native={}\n", place.path("built"));
    assert!(made.contains(&search), "{made}");
    assert!(place.folder.join("built/libvierskof.a").is_file());
    assert!(!made.contains("libvierskof.a"), "{made}");
}
