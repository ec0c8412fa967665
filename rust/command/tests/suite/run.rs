//! The scripts in a fresh clone, with stand-ins for the kit, cargo and Debian's tools.

use std::os::unix::fs::PermissionsExt;
use std::path::{Path, PathBuf};
use std::process::{self, Command, Output};
use std::{env, fs};

use super::answer;

const ROOT: &str = concat!(env!("CARGO_MANIFEST_DIR"), "/../..");

/// A clone in which nothing is built, outside the repository, in which rt takes no second crates.txt.
struct Clone {
    folder: PathBuf,
}

impl Drop for Clone {
    fn drop(&mut self) {
        let _ = fs::remove_dir_all(&self.folder);
    }
}

impl Clone {
    fn new(name: &str) -> Self {
        let folder = format!("vierskof-{name}-{}", process::id());
        let clone = Self {
            folder: env::temp_dir().join(folder),
        };
        for part in [
            "run",
            "tools",
            "rust/Cargo.toml",
            "rust/packages.txt",
            "rust/command/help",
        ] {
            let to = clone.folder.join(part);
            fs::create_dir_all(to.parent().expect("a folder")).expect("a folder");
            let copied = Command::new("cp")
                .args(["-r", &format!("{ROOT}/{part}")])
                .arg(to)
                .status();
            assert!(copied.expect("cp runs").success(), "{part}");
        }
        for proved in ["sitting", "vierskof"] {
            fs::create_dir_all(clone.folder.join("crates").join(proved)).expect("a folder");
        }
        for file in ["crates.txt", "crates/sitting/stdin"] {
            fs::write(clone.folder.join(file), "").expect("a file");
        }
        for tool in ["rt", "cargo", "apt-get", "sudo"] {
            clone.tool(tool, "exit 9");
        }
        clone.tool("dpkg-query", "echo install ok installed");
        clone
    }

    /// A stand-in, which keeps that it was called.
    fn tool(&self, name: &str, script: &str) {
        let file = self.folder.join("bin").join(name);
        fs::create_dir_all(file.parent().expect("a folder")).expect("a folder");
        let called = self.folder.join("called");
        let text = format!(
            "#!/bin/sh\necho \"{name} $*\" >>{}\n{script}\n",
            called.display()
        );
        fs::write(&file, text).expect("a file");
        fs::set_permissions(&file, fs::Permissions::from_mode(0o755)).expect("a program");
    }

    /// Runs a script, with no tools but the system's and the stand-ins, from another folder.
    fn output(&self, script: &str, arguments: &str) -> Output {
        let path = format!("{}:/usr/bin:/bin", self.folder.join("bin").display());
        Command::new(self.folder.join(script))
            .args(arguments.split_whitespace())
            .current_dir("/")
            .env_remove("VIERSKOF_LIB_DIR")
            .env_remove("GATEKEEP_SRC")
            .env("PATH", path)
            .output()
            .expect("the script runs")
    }

    fn run(&self, arguments: &str) -> (Option<i32>, String, String) {
        told(self.output("run", arguments))
    }

    /// What was called since the last time that this was asked.
    fn called(&self) -> String {
        let file = self.folder.join("called");
        let called = fs::read_to_string(&file).unwrap_or_default();
        let _ = fs::remove_file(file);
        called
    }
}

fn told(output: Output) -> (Option<i32>, String, String) {
    let text = |bytes| String::from_utf8(bytes).expect("text");
    (
        output.status.code(),
        text(output.stdout),
        text(output.stderr),
    )
}

#[test]
fn help_and_version_need_nothing() {
    let clone = Clone::new("help");
    let printed = |text: String| (Some(0), text, String::new());
    for arguments in ["--help", "-h", "help"] {
        assert_eq!(clone.run(arguments), printed(answer("--help", "")));
    }
    for arguments in ["evaluate --help", "narrow -h"] {
        let name = arguments.split(' ').next().expect("a name");
        let help = answer(&format!("{name} --help"), "");
        assert_eq!(clone.run(arguments), printed(help));
    }
    for arguments in ["--version", "-V"] {
        assert_eq!(clone.run(arguments), printed(answer("--version", "")));
    }
    for unknown in ["decide x", "--halp", "../x --help"] {
        let name = unknown.split(' ').next().expect("a name");
        let said = format!("run: {name} is no command; ./run --help says which there are\n");
        assert_eq!(clone.run(unknown), (Some(2), String::new(), said));
    }
    assert_eq!(clone.called(), "");
}

#[test]
fn each_step_is_told() {
    let clone = Clone::new("steps");
    clone.tool(
        "rt",
        "\
echo 'statements std: modules loaded=0 checked=0'
[ -f out/made ] || echo 'rt: chose --jobs 2 for model'
echo 'rt: nothing has changed since the last proved build'
[ -f out/made ] || echo 'rt: chose --jobs 4 for calls' >&2
mkdir -p out
touch out/made
printf '#!/bin/sh\\ncat >/dev/null; echo listed\\n' >out/sitting
chmod +x out/sitting
[ $1 != lib ] || touch out/libvierskof.a",
    );
    clone.tool(
        "cargo",
        "\
[ -f target/release/vierskof ] || echo '   Compiling command v0.1.0 (..)' >&2
echo '    Finished release' >&2
mkdir -p target/release
printf '#!/bin/sh\\necho decided \"$@\"\\n' >target/release/vierskof
chmod +x target/release/vierskof",
    );

    let (status, printed, steps) = clone.run("");
    assert_eq!((status, printed.as_str()), (Some(0), "listed\n"));
    let lines: Vec<&str> = steps.lines().collect();
    assert!(lines[0].starts_with("run: proving and building"), "{steps}");
    let last = "minutes";
    assert!(lines[0].ends_with(last), "{steps}");
    let proving = ["rt: proving model", "rt: proving calls"];
    assert_eq!(lines[1..], proving);
    assert_eq!(
        clone.run("sitting /dev/null"),
        (Some(0), "listed\n".to_owned(), String::new())
    );
    assert_eq!(clone.called(), "rt run\n");

    let (status, printed, steps) = clone.run("show x");
    assert_eq!((status, printed.as_str()), (Some(0), "decided show x\n"));
    let lines: Vec<&str> = steps.lines().collect();
    assert!(lines[1].starts_with("library: "), "{steps}");
    assert_eq!(lines[2..4], proving);
    assert_eq!(lines[4..], ["   Compiling command v0.1.0 (..)"]);
    let again = (Some(0), "decided show x\n".to_owned(), String::new());
    assert_eq!(clone.run("show x"), again);
    let called = clone.called();
    assert_eq!(called.matches("rt lib\n").count(), 1, "{called}");
    // Of the packages only those that the command needs are asked for.
    let asked: Vec<&str> = called
        .lines()
        .filter(|line| line.starts_with("dpkg-query"))
        .collect();
    let needed = ["librust-clap-dev", "librust-time-dev"];
    assert_eq!(asked.len(), 2 * needed.len(), "{called}");
    let is_needed = |line: &&str| needed.iter().any(|package| line.ends_with(package));
    assert!(asked.iter().all(is_needed), "{called}");
}

#[test]
fn what_fails_says_all() {
    let clone = Clone::new("failing");
    clone.tool(
        "rt",
        "echo 'rt: chose --jobs 2 for laws'; echo why; echo 'rt: the library laws did not build' >&2; exit 1",
    );
    for arguments in ["", "show x"] {
        let (status, printed, said) = clone.run(arguments);
        assert_eq!((status, printed.as_str()), (Some(1), ""));
        let last = "\nwhy\nrt: the library laws did not build\n";
        assert!(said.ends_with(last), "{said}");
    }

    fs::remove_file(clone.folder.join("bin/rt")).expect("the kit goes");
    for arguments in ["", "show x"] {
        let (status, printed, said) = clone.run(arguments);
        assert_eq!((status, printed.as_str()), (Some(1), ""));
        let last = "the Rattle kit is not here: its command rt has to be on the PATH\n";
        assert!(said.ends_with(last), "{said}");
    }

    clone.tool("rt", "exit 0");
    let (status, _, said) = told(clone.output("tools/library", ""));
    assert_eq!(status, Some(1));
    assert!(
        said.ends_with("library: rt lib made no crates/vierskof/out/libvierskof.a\n"),
        "{said}"
    );
}

#[test]
fn a_folder_without_the_original_is_a_fault_where_it_is_named() {
    let clone = Clone::new("original");
    assert_eq!(
        told(clone.output("tools/original", "")),
        (Some(0), String::new(), String::new())
    );
    let named = |folder: &Path| {
        let script = clone.folder.join("tools/original");
        told(
            Command::new(script)
                .env("GATEKEEP_SRC", folder)
                .output()
                .expect("the script runs"),
        )
    };
    let (status, printed, said) = named(Path::new("/nowhere"));
    assert_eq!((status, printed.as_str()), (Some(1), ""));
    assert!(
        said.starts_with("original: GATEKEEP_SRC names /nowhere, which is no checkout"),
        "{said}"
    );
    let source = clone.folder.join("checkout/crates/gatekeep/src");
    fs::create_dir_all(&source).expect("a folder");
    fs::write(source.join("evaluate.rs"), "").expect("a file");
    let checkout = clone.folder.join("checkout");
    assert_eq!(
        named(&checkout),
        (Some(0), format!("{}\n", checkout.display()), String::new())
    );
}
