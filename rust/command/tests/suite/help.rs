//! What the help says holds: its examples are run as they stand.

use std::env;
use std::fs;
use std::path::{Path, PathBuf};
use std::process::Command;

use command::guide::ROAD;

use super::{answer, folder};

/// The subcommands, in an order in which each example finds the files that an earlier one wrote.
const SUBCOMMANDS: [&str; 13] = [
    "evaluate", "reduce", "narrow", "complete", "required", "show", "assemble", "in-force",
    "batch", "join", "window", "pack", "unpack",
];

/// Runs commands as they would be pasted into a shell, with this build's command on the path.
#[track_caller]
pub fn shell(commands: &str, folder: &Path) -> String {
    let built = PathBuf::from(env!("CARGO_BIN_EXE_vierskof"));
    let mut path = vec![built.parent().expect("a folder").to_owned()];
    path.extend(env::split_paths(&env::var_os("PATH").expect("a path")));
    let output = Command::new("sh")
        .args(["-e", "-c", commands])
        .current_dir(folder)
        .env("PATH", env::join_paths(path).expect("a path"))
        .output()
        .expect("the shell runs");
    assert_eq!(String::from_utf8_lossy(&output.stderr), "", "{commands}");
    assert_eq!(output.status.code(), Some(0), "{commands}");
    String::from_utf8(output.stdout).expect("text")
}

/// The lines of a shown record that say its effect and products.
fn decided(shown: &str) -> Vec<&str> {
    let decides = |line: &&str| line.starts_with("# Permit") || line.starts_with("# Deny");
    shown.lines().filter(decides).collect()
}

#[test]
fn the_road_ends_as_one_sitting_does() {
    assert!(answer("--help", "").contains(ROAD));
    let shown = shell(ROAD, &folder("road"));
    // The road's answer, and that of the one sitting after it.
    assert_eq!(decided(&shown), ["# Permit: products 0, 1, 2."; 2]);
}

#[test]
fn the_road_leads_over_two_pending_records() {
    let folder = folder("stages");
    shell(ROAD, &folder);
    let stages = "vierskof reduce licence.txt --facts 6=absent > relay\n\
                  vierskof narrow relay --facts 7=present > district\n\
                  vierskof required relay\n\
                  vierskof required district";
    assert_eq!(shell(stages, &folder), "5\n7\n8\n5\n");
}

#[test]
fn examples_of_the_subcommands() {
    let folder = folder("examples");
    shell(ROAD, &folder);
    for name in SUBCOMMANDS {
        let help = answer(&format!("{name} --help"), "");
        let (_, example) = help.split_once("Example:\n").expect("an example");
        assert!(example.contains(&format!("vierskof {name}")), "{example}");
        let shown = shell(example, &folder);
        assert_eq!(shown.is_empty(), example.contains('>'), "{example}");
    }
    let completed = shell(
        "vierskof complete district.txt --facts 5=present,6=absent,7=present",
        &folder,
    );
    assert_eq!(decided(&completed), ["# Permit: products 0, 1, 2."]);
    let shown = shell("vierskof show licence.txt", &folder);
    assert_eq!(shell("vierskof show licence.bin", &folder), shown);
    assert_eq!(shell("vierskof unpack licence.tight", &folder), shown);
}

#[test]
fn help_tells_of_each_subcommand_and_status() {
    let help = answer("--help", "");
    for said in [
        "\n  0  decided",
        "\n  1  refused",
        "\n  2  usage",
        "0 for a permit, 3 for a deny and 4\n",
        "What a sheet is",
        "What a record is",
        "What a register is",
        "What a batch is",
        "The tight form",
    ] {
        assert!(help.contains(said), "{said}");
    }
    for name in SUBCOMMANDS {
        assert!(help.contains(&format!("\n  {name}")), "{name}");
    }
    for name in ["evaluate", "reduce", "narrow", "complete"] {
        let help = answer(&format!("{name} --help"), "");
        let said = "absent in evaluate, complete and window, and unknown in reduce and narrow";
        assert!(help.contains(said), "{help}");
        let reduces = ["reduce", "narrow"].contains(&name);
        assert_eq!(help.contains("--in-order\n"), reduces, "{help}");
    }
}

#[test]
fn help_fits_a_terminal() {
    let help = answer("--help", "");
    let guide = help.split_once("What a sheet is").expect("the guide").1;
    assert!(guide.lines().all(|line| line.chars().count() <= 80));
}

/// `./run` shows these texts where nothing is built yet. `vierskof NAME --help > rust/command/help/NAME.txt` makes one again.
#[test]
fn the_stored_help_is_what_is_printed() {
    let stored = |name: &str| {
        let file = format!(concat!(env!("CARGO_MANIFEST_DIR"), "/help/{}.txt"), name);
        fs::read_to_string(&file).unwrap_or_else(|error| panic!("{file}: {error}"))
    };
    assert_eq!(answer("--help", ""), stored("vierskof"));
    for name in SUBCOMMANDS {
        assert_eq!(answer(&format!("{name} --help"), ""), stored(name));
    }
}
