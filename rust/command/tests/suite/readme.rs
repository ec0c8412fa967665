//! What the README shows holds: its examples are run as they stand.

use command::guide::ROAD;

use super::{folder, help};

const README: &str = include_str!("../../../../README.md");

/// The README's commands begin with `./run`, which builds the command and hands its arguments over.
#[test]
fn the_readme_has_the_same_road() {
    assert!(README.contains(&ROAD.replace("vierskof ", "./run ")));
}

#[test]
fn the_readme_shows_what_is_printed() {
    let (_, example) = README.split_once("\n    $ ").expect("an example");
    let (typed, rest) = example.split_once('\n').expect("a line");
    let printed = rest.lines().map_while(|line| line.strip_prefix("    "));
    let printed: String = printed.flat_map(|line| [line, "\n"]).collect();
    let shown = help::shell(&typed.replace("./run", "vierskof"), &folder("readme"));
    assert_eq!(shown, printed);
}

/// The partners' example: in stages and at once the same level.
#[test]
fn the_readme_decides_by_levels() {
    let (_, example) = README.split_once("## By levels").expect("a section");
    let (_, example) = example.split_once("```sh\n").expect("an example");
    let (typed, said) = example.split_once("```").expect("its end");
    let shown = help::shell(&typed.replace("./run ", "vierskof "), &folder("partners"));
    assert_eq!(shown.matches("# Permit: level 3.\n").count(), 2, "{shown}");
    assert!(said.contains("Both ways end in level 3"));
}

/// The release desk's example.
#[test]
fn the_readme_runs_a_batch() {
    let (_, example) = README
        .split_once("## Many requests at once")
        .expect("a section");
    let (_, example) = example.split_once("```sh\n").expect("an example");
    let (typed, said) = example.split_once("```").expect("its end");
    let shown = help::shell(&typed.replace("./run ", "vierskof "), &folder("desk"));
    let lines: Vec<&str> = shown.lines().collect();
    let starts = [
        "request 1: sheet 7, 2 nodes",
        "E0007001 40050000 C0000003 ",
        "request 2: sheet 9, refused 18: ",
        "request 3: sheet 7, 2 nodes",
        "E0007001 C0050000 D",
        "request 4: none, no sheet is in force",
    ];
    assert_eq!(lines.len(), starts.len(), "{shown}");
    assert!(
        lines
            .iter()
            .zip(starts)
            .all(|(line, start)| line.starts_with(start)),
        "{shown}"
    );
    assert!(said.contains("The first and the third request take two nodes each."));
}

/// The curators' example, from windows to a decision.
#[test]
fn the_readme_sets_facts_by_age() {
    let (_, example) = README.split_once("## Facts by age").expect("a section");
    let (_, example) = example.split_once("```sh\n").expect("an example");
    let (typed, said) = example.split_once("```").expect("its end");
    let shown = help::shell(&typed.replace("./run ", "vierskof "), &folder("age"));
    assert!(
        shown.starts_with("6=absent,7=present\n# Permit: product 1.\n"),
        "{shown}"
    );
    assert!(said.contains("`6=absent,7=present`, and product 1 is permitted"));
}

/// A sheet packed, its size beside its words', and unpacked.
#[test]
fn the_readme_packs_a_sheet() {
    let (_, example) = README
        .split_once("## Over a narrow link")
        .expect("a section");
    let (_, example) = example.split_once("```sh\n").expect("an example");
    let (typed, said) = example.split_once("```").expect("its end");
    let shown = help::shell(&typed.replace("./run ", "vierskof "), &folder("packed"));
    let lines: Vec<&str> = shown.lines().map(str::trim).collect();
    assert_eq!(lines[..3], ["880000308050", "12", "6"]);
    assert!(shown.ends_with("\ngrant 0003 hidden\n  has 5\n"), "{shown}");
    assert!(said.contains("`880000308050`, the sizes 12 and 6, and the sheet again"));
}
