//! Tests of the text form, and of the command as it is run.

mod answers;
mod batch;
mod faults;
mod forms;
mod help;
mod join;
mod levels;
mod readme;
mod registers;
mod run;
mod show;
mod statuses;
mod tight;
mod windows;

use std::fs;
use std::io::Write;
use std::path::PathBuf;
use std::process::{Child, Command, Output, Stdio};

use command::text::assemble;

/// Words written as document 01 writes them.
fn words(text: &str) -> Vec<u32> {
    text.split_whitespace()
        .map(|word| u32::from_str_radix(word, 16).expect("a word"))
        .collect()
}

/// Words as document 01 writes them.
fn hex(words: &[u32]) -> String {
    let words: Vec<String> = words.iter().map(|word| format!("{word:08X}")).collect();
    words.join(" ")
}

/// The words of a text form without a fault.
#[track_caller]
fn assembled(text: &str) -> Vec<u32> {
    assemble(text).unwrap_or_else(|fault| panic!("{fault} in\n{text}"))
}

/// The command with these arguments, apart by single spaces.
fn command(arguments: &str) -> Command {
    let mut command = Command::new(env!("CARGO_BIN_EXE_vierskof"));
    command.args(arguments.split(' '));
    command
}

/// The command with these arguments, running with a pipe at each end.
fn piped(arguments: &str) -> Child {
    command(arguments)
        .stdin(Stdio::piped())
        .stdout(Stdio::piped())
        .stderr(Stdio::piped())
        .spawn()
        .expect("the command runs")
}

/// Runs the command with these bytes on standard input.
fn run(arguments: &str, input: &[u8]) -> Output {
    let mut child = piped(arguments);
    let mut stdin = child.stdin.take().expect("a pipe");
    // A command that stops early, for a usage fault say, leaves the rest unread.
    let _ = stdin.write_all(input);
    drop(stdin);
    child.wait_with_output().expect("the command ends")
}

/// What an accepted run writes.
#[track_caller]
fn accepted(arguments: &str, input: impl AsRef<[u8]>) -> Vec<u8> {
    let output = run(arguments, input.as_ref());
    let error = String::from_utf8_lossy(&output.stderr);
    assert_eq!(output.status.code(), Some(0), "{arguments}: {error}");
    assert_eq!(error, "");
    output.stdout
}

/// What an accepted run writes, as text.
#[track_caller]
fn answer(arguments: &str, input: impl AsRef<[u8]>) -> String {
    String::from_utf8(accepted(arguments, input)).expect("text")
}

/// What a run that fails with this status says; it writes nothing.
#[track_caller]
fn failure(status: i32, arguments: &str, input: impl AsRef<[u8]>) -> String {
    let output = run(arguments, input.as_ref());
    let error = String::from_utf8(output.stderr).expect("text");
    assert_eq!(output.status.code(), Some(status), "{arguments}: {error}");
    assert_eq!(output.stdout, b"", "{arguments}");
    error
}

/// An empty folder of a test's own.
fn folder(name: &str) -> PathBuf {
    let folder = PathBuf::from(env!("CARGO_TARGET_TMPDIR")).join(name);
    if folder.exists() {
        fs::remove_dir_all(&folder).expect("the last run's folder goes");
    }
    fs::create_dir_all(&folder).expect("a new folder");
    folder
}
