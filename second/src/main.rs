//! The second planner as a program. The script comes from the file that the argument names, or
//! from standard input.

use std::ffi::OsString;
use std::fs::File;
use std::io::{self, BufReader, BufWriter, Write};
use std::process::ExitCode;

fn run_on(name: Option<OsString>) -> io::Result<()> {
    let mut output = BufWriter::with_capacity(1 << 16, io::stdout().lock());
    let ran = match name {
        Some(name) => second::run(
            BufReader::with_capacity(1 << 16, File::open(name)?),
            &mut output,
        ),
        None => second::run(io::stdin().lock(), &mut output),
    };
    // Answers given before a failing read still go out.
    let flushed = output.flush();
    ran.and(flushed)
}

fn main() -> ExitCode {
    match run_on(std::env::args_os().nth(1)) {
        Ok(()) => ExitCode::SUCCESS,
        Err(error) => {
            // A closed error output is no reason to panic.
            let _ = writeln!(io::stderr(), "second: {error}");
            ExitCode::FAILURE
        }
    }
}
