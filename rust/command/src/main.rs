//! The command `vierskof`.

use std::fs;
use std::io::{self, ErrorKind, Write};
use std::process::ExitCode;
use std::sync::atomic::{AtomicBool, Ordering};

use clap::Parser;
use command::arguments::Arguments;
use command::work::{Failure, run};

/// Whether standard output was closed when the command began.
static CLOSED: AtomicBool = AtomicBool::new(false);

/// Runs before `main`: the runtime opens the null device in the place of a closed standard output, and then what is written is lost without a word.
#[allow(unsafe_code)]
#[unsafe(link_section = ".init_array")]
#[used]
static BEFORE_MAIN: extern "C" fn() = look;

extern "C" fn look() {
    let open = |number| fs::symlink_metadata(format!("/proc/self/fd/{number}"));
    let missing = open("1").is_err_and(|error| error.kind() == ErrorKind::NotFound);
    // Without a /proc there is nothing to see.
    CLOSED.store(missing && open("").is_ok(), Ordering::Relaxed);
}

fn main() -> ExitCode {
    let done = run(&Arguments::parse(), io::stdin()).and_then(|done| {
        write(&done.bytes)?;
        Ok(done.status)
    });
    let failure = match done {
        Ok(status) => return ExitCode::from(status),
        Err(failure) => failure,
    };
    // Nobody can be told that standard error is closed.
    let _ = writeln!(io::stderr(), "{failure}");
    ExitCode::from(failure.status())
}

fn write(bytes: &[u8]) -> Result<(), Failure> {
    if CLOSED.load(Ordering::Relaxed) {
        return Err(Failure::Usage("standard output is closed".to_owned()));
    }
    let mut output = io::stdout();
    match output.write_all(bytes).and_then(|()| output.flush()) {
        // Whoever reads has seen enough.
        Err(error) if error.kind() == ErrorKind::BrokenPipe => Ok(()),
        Err(error) => Err(Failure::Usage(format!("standard output: {error}"))),
        Ok(()) => Ok(()),
    }
}
