//! The example that the README shows.

use std::env;
use std::process::Command;

const README: &str = include_str!("../../../../README.md");
const FIRST: &str = include_str!("../../examples/first.rs");

#[test]
fn the_readme_has_a_whole_program() {
    let (_, block) = README.split_once("```rust\n").expect("a program");
    let (program, _) = block.split_once("```").expect("its end");
    assert_eq!(program, FIRST);
}

/// Cargo builds the examples beside the tests.
#[test]
fn the_program_decides() {
    let own = env::current_exe().expect("this program");
    let built = own.ancestors().nth(2).expect("the build's folder");
    let output = Command::new(built.join("examples/first"))
        .output()
        .expect("the example runs");
    assert!(output.status.success());
    assert_eq!(output.stdout, b"permit 0003\n");
}
