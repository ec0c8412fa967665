//! Exit statuses, and what is said where.

use std::fs::{self, File};
use std::io::Write;
use std::process::{Command, Stdio};

use super::{accepted, answer, command, failure, folder, piped, run};

const SHEET: &str = "grant 0003 hidden\n  has 5\n";

#[test]
fn refusals_say_their_number() {
    let long = "70000000 ".repeat(4_097);
    let unknown = "evaluate --facts 5=unknown";
    let table_hex = format!("evaluate --table-hex {}", "00".repeat(257));
    for (arguments, input, number) in [
        ("show", "", 1),
        ("assemble", "# nothing", 1),
        ("show", &long, 1),
        (&table_hex, SHEET, 2),
        ("evaluate --table-hex 03", SHEET, 3),
        (unknown, SHEET, 4),
        ("complete --table-hex 80", "F0000000 60000001", 4),
        ("evaluate", "pending\ndeny", 5),
        ("narrow", SHEET, 5),
        ("reduce --in-order", "pending\ndeny", 5),
        ("narrow --in-order", SHEET, 5),
        ("required", "C0000001 00000000", 5),
        ("required", "88000003", 6),
        ("reduce", "70000001", 8),
        ("show", "70000000 70000000", 10),
        ("narrow", "pending sheet 7\ndeny", 16),
        ("complete --sheet 8", "pending sheet 7\ndeny", 16),
        ("narrow --in-order --sheet 7", "pending\ndeny", 16),
    ] {
        let message = failure(1, arguments, input);
        assert!(
            message.starts_with(&format!("refused {number}: ")),
            "{arguments}: {message}"
        );
        assert_eq!(message.lines().count(), 1);
    }
}

#[test]
fn words_of_the_other_kind() {
    for call in ["evaluate", "reduce"] {
        let message = failure(1, call, "pending\ndeny");
        let hint = " (this is a record: narrow and complete take it)\n";
        assert!(message.ends_with(hint), "{message}");
        let message = failure(1, call, "C0000001 00000000");
        assert!(
            message.starts_with("refused 5: ") && message.ends_with("(word 1, C0000001)\n"),
            "{message}"
        );
    }
    for call in ["narrow", "complete"] {
        let message = failure(1, call, SHEET);
        let hint = " (this is a sheet: evaluate and reduce take it)\n";
        assert!(message.ends_with(hint), "{message}");
    }
}

#[test]
fn refusals_say_where() {
    let arms = |arm: &str, count: usize| format!("any\n{}", arm.repeat(count));
    let long = arms("  permit 0001\n  deny\n", 2_047) + "  any\n    deny\n    deny\n";
    let levels: Vec<String> = (0..33)
        .map(|depth| format!("{:1$}any", "", 2 * depth))
        .collect();
    let deep = levels.join("\n");
    for (arguments, input, place) in [
        ("show", "", "there is no word"),
        ("evaluate", "# nothing\n", "there is no word"),
        (
            "show",
            &long,
            "4098 words, where at most 4096 are due; too many from line 4097 on",
        ),
        (
            "narrow",
            &"F0000000 ".repeat(16_385),
            "16385 words, where at most 16384 are due",
        ),
        ("evaluate --table-hex 0003", SHEET, "fact 7"),
        ("evaluate --table-hex 00C2", SHEET, "fact 4"),
        ("evaluate --table-hex 0083", SHEET, "fact 4"),
        ("reduce --table-hex 8083", SHEET, "fact 7"),
        ("evaluate --facts 6=unknown,5=unknown", SHEET, "fact 5"),
        (
            "complete --facts 1023=unknown",
            "pending\ndeny",
            "fact 1023",
        ),
        ("show", "A0000002 70000000 00000000", "word 3, 00000000"),
        ("evaluate", "A0000002\n70000000\n", "after word 2, the last"),
        ("show", &deep, "line 33"),
        (
            "show",
            "80200001 00000000 07400000 00000000",
            "word 3, 07400000",
        ),
        ("show", "A0000001 70000100 70000000", "word 2, 70000100"),
        ("show", "70000000 70000000 60000001", "word 2, 70000000"),
        ("narrow", "F0000001 C4050000 70000000", "word 2, C4050000"),
        ("show", "F0000001 C005C000 70000000", "word 2, C005C000"),
        ("complete", "F0007000 70000000", "the record is of sheet 7"),
        (
            "narrow --sheet 7",
            "E0000000 C0000001 00000000",
            "the record has no sheet number",
        ),
        (
            "narrow --facts 9=absent,5=absent,8=present",
            "pending\nconsulted 3=silent,5=present,8=absent\ndeny",
            "the record has fact 5 as present",
        ),
        (
            "narrow --in-order --facts 5=present,8=present",
            "pending\nconsulted 3=silent,5=present,8=absent\ndeny",
            "the record has fact 8 as absent",
        ),
    ] {
        let message = failure(1, arguments, input);
        assert!(
            message.ends_with(&format!(" ({place})\n")),
            "{arguments}: {message}"
        );
    }
}

#[test]
fn a_status_may_say_the_effect() {
    let pending = answer("reduce", SHEET);
    for (arguments, input, due) in [
        ("evaluate --facts 5=present", SHEET, 0),
        ("evaluate", SHEET, 3),
        ("reduce --facts 5=absent", SHEET, 3),
        ("reduce", SHEET, 4),
        ("narrow --facts 6=present", &pending, 4),
        ("narrow --facts 5=present", &pending, 0),
        ("reduce --in-order", SHEET, 4),
        ("narrow --in-order --facts 5=present", &pending, 0),
        ("complete", &pending, 3),
        ("evaluate", "permit 0000", 0),
    ] {
        let plain = accepted(arguments, input);
        let output = run(&format!("{arguments} --status --to text"), input.as_bytes());
        assert_eq!(output.status.code(), Some(due), "{arguments}");
        assert_eq!((output.stdout, output.stderr), (plain, Vec::new()));
    }
    assert!(failure(1, "evaluate --status", "70000001").starts_with("refused 8: "));
    failure(2, "show --status", SHEET);
}

#[test]
fn a_record_without_room_is_refused() {
    // A true All names all its facts, here one more than a list can hold.
    let has = |count: usize| "      has 1\n".repeat(count);
    let record = format!(
        "pending\ngrant 0001\n  all\n    all\n{}    all\n{}",
        has(4_000),
        has(96)
    );
    let message = failure(1, "complete --facts 1=present", record);
    assert!(message.starts_with("refused 11: "), "{message}");
}

#[test]
fn usage() {
    for (arguments, said) in [
        ("evaluate --facts 5", "--facts"),
        ("evaluate --facts 1024=present", "fact from 0 to 1023"),
        (
            "evaluate --facts 5=silent",
            "a fact from 0 to 1023 with =present, =absent or =unknown is due",
        ),
        (
            "evaluate --facts 5=present,5=absent",
            "error: --facts says 5=present and 5=absent\n",
        ),
        (
            "narrow --facts 5=unknown --facts 5=absent",
            "--facts says 5=unknown and 5=absent",
        ),
        ("evaluate --table-hex 001", "--table-hex"),
        ("evaluate --table-hex 0G", "--table-hex"),
        (
            "evaluate --table-hex 00 --facts 5=present",
            "cannot be used with",
        ),
        ("evaluate --table-hex 00 --table t", "cannot be used with"),
        (
            "evaluate --table t --facts 5=present",
            "cannot be used with",
        ),
        ("evaluate --table /nowhere/table", "error: /nowhere/table: "),
        ("evaluate /nowhere/sheet", "error: /nowhere/sheet: "),
        ("show /", "error: /: "),
        ("show --to words", "--to"),
        ("decide", "decide"),
    ] {
        let message = failure(2, arguments, SHEET);
        assert!(message.contains(said), "{arguments}: {message}");
    }
    let message = failure(2, "show", "any\n  has 5");
    let due = "a policy (permit, deny, grant, all, any, or-else) is due";
    assert_eq!(
        message,
        format!("error: standard input: line 2: found `has`, but {due}\n")
    );
}

#[test]
fn files_and_standard_input() {
    let folder = folder("files");
    let sheet = folder.join("sheet");
    fs::write(&sheet, SHEET).expect("a file");
    let named = format!("show {}", sheet.display());
    assert_eq!(answer(&named, "not read"), answer("show", SHEET));
    assert_eq!(answer("show -", SHEET), answer("show", SHEET));
    fs::write(&sheet, "deny\n deny").expect("a file");
    let message = failure(2, &named, "");
    assert!(
        message.starts_with(&format!("error: {}: line 2: ", sheet.display())),
        "{message}"
    );
}

#[test]
fn a_file_without_end_is_not_read_to_it() {
    let message = failure(2, "show /dev/zero", "");
    assert_eq!(message, "error: /dev/zero: longer than 16 MiB\n");
}

/// A record of far more bytes than a pipe holds.
fn long_record() -> String {
    let facts = vec!["1000"; 4_095].join(",");
    let arm = format!("  deny-with-trace facts {facts}\n");
    format!("pending\nany\n{}", arm.repeat(7))
}

#[test]
fn a_closed_pipe_is_no_fault() {
    let record = long_record();
    assert!(accepted("show", &record).len() > 1 << 17);
    for arguments in ["show", "show --to binary", "--help"] {
        let mut child = piped(arguments);
        drop(child.stdout.take());
        let mut stdin = child.stdin.take().expect("a pipe");
        // The help reads nothing.
        let _ = stdin.write_all(record.as_bytes());
        drop(stdin);
        let output = child.wait_with_output().expect("the command ends");
        assert_eq!(output.status.code(), Some(0), "{arguments}");
        assert_eq!(output.stderr, b"", "{arguments}");
    }
}

#[test]
fn a_closed_standard_output_is_a_fault() {
    let sheet = folder("closed").join("sheet");
    fs::write(&sheet, SHEET).expect("a file");
    let ended = |redirected: &str| {
        let output = Command::new("sh")
            .args([
                "-c",
                &format!("exec \"$0\" evaluate --status \"$1\" {redirected}"),
            ])
            .args([env!("CARGO_BIN_EXE_vierskof").as_ref(), sheet.as_os_str()])
            .output()
            .expect("the command runs");
        (
            output.status.code(),
            String::from_utf8(output.stderr).expect("text"),
        )
    };
    let closed = "error: standard output is closed\n".to_owned();
    assert_eq!(ended(">&-"), (Some(2), closed));
    assert_eq!(ended(">&- 2>&-"), (Some(2), String::new()));
    for open in [">/dev/null", "1<>/dev/null", "<&-", "2>&-"] {
        assert_eq!(ended(open), (Some(3), String::new()), "{open}");
    }
}

#[test]
fn a_full_disk_is_a_fault() {
    let full = File::options()
        .write(true)
        .open("/dev/full")
        .expect("a device that is full");
    for arguments in ["assemble", "assemble --to binary"] {
        let sheet = folder("full").join("sheet");
        fs::write(&sheet, SHEET).expect("a file");
        let output = command(&format!("{arguments} {}", sheet.display()))
            .stdout(full.try_clone().expect("the same device"))
            .stderr(Stdio::piped())
            .output()
            .expect("the command runs");
        let error = String::from_utf8(output.stderr).expect("text");
        assert_eq!(output.status.code(), Some(2), "{arguments}");
        assert!(error.starts_with("error: standard output: "), "{error}");
    }
}

#[test]
fn no_command_at_all_is_usage() {
    let output = run("--version", b"");
    assert_eq!(output.status.code(), Some(0));
    assert!(output.stdout.starts_with(b"vierskof "));
    let output = Command::new(env!("CARGO_BIN_EXE_vierskof"))
        .output()
        .expect("the command runs");
    assert_eq!(output.status.code(), Some(2));
    assert_eq!(output.stdout, b"");
}
