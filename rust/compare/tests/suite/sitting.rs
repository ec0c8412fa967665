//! The proved program `sitting` against the original's listing.

use std::io::Write as _;
use std::path::{Path, PathBuf};
use std::process::{Command, Stdio};

use compare::case::Call;
use compare::generate::cases::draw;
use compare::generate::limits;
use compare::generate::rng::Rng;
use compare::listing::listing;

use super::listing::request;

const SEED: u64 = 20_261_116;

/// Where `rt ci` and `rt run` link it.
fn program() -> PathBuf {
    let program = Path::new(env!("CARGO_MANIFEST_DIR")).join("../../crates/sitting/out/sitting");
    assert!(program.is_file(), "no program: ./run makes it");
    program
}

#[track_caller]
fn prints_the_originals(program: &Path, given: &[u8]) {
    let mut child = Command::new(program)
        .stdin(Stdio::piped())
        .stdout(Stdio::piped())
        .spawn()
        .expect("a process");
    let mut stdin = child.stdin.take().expect("a pipe");
    stdin
        .write_all(given)
        .expect("the input is read to its end");
    drop(stdin);
    let printed = child.wait_with_output().expect("output").stdout;
    assert_eq!(
        String::from_utf8_lossy(&printed),
        String::from_utf8_lossy(&listing(given)),
        "seed {SEED}, {} bytes: {given:02X?}",
        given.len()
    );
}

/// Generated and damaged requests: whole, cut at a random byte, and with bytes after them.
#[test]
fn requests_whole_cut_and_followed() {
    let program = program();
    let mut rng = Rng::new(SEED);
    for case in draw(SEED, 500, &[Call::Evaluate]) {
        let Some(mut given) = request(&case.words, &case.table) else {
            continue;
        };
        prints_the_originals(&program, &given);
        prints_the_originals(&program, &given[..rng.below(given.len())]);
        given.extend([0xFF; 5]);
        prints_the_originals(&program, &given);
    }
}

/// 4,095 arms, 32 levels, 4,096 words and their neighbours.
#[test]
fn requests_at_the_limits() {
    let program = program();
    for case in limits::cases(&mut Rng::new(SEED)) {
        if case.call == Call::Evaluate
            && let Some(given) = request(&case.words, &case.table)
        {
            prints_the_originals(&program, &given);
        }
    }
}

/// More bytes than any request has.
#[test]
fn a_long_input() {
    let program = program();
    let mut given = request(&[0x6000_0001], &[]).expect("short");
    given.resize(200_000, 0xA5);
    prints_the_originals(&program, &given);
    prints_the_originals(&program, &vec![0xFF; 100_000]);
}
