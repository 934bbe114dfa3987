//! Writes the stored script to standard output. With `--count` it tells instead how many rows at
//! random the script has of each sort, and how many answers of each sort the second planner gives.

use second::answers::{answered, answers, Tally};
use second::generator::script::Script;
use second::generator::{rows, stored};
use std::io::{self, Write};
use std::process::ExitCode;

fn count(script: &Script) -> io::Result<String> {
    let mut output = Vec::new();
    second::run(&script.bytes[..], &mut output)?;
    let mut tally = Tally::default();
    for ((_, line), answer) in answered(&script.bytes).zip(answers(&output)) {
        tally.add(line, answer);
    }
    let rows = rows::counted(&script.rows);
    let lines = script.bytes.split(|&byte| byte == b'\n').count();
    let answers = tally.answers();
    Ok(format!("{rows}{tally}{lines} lines, {answers} answers\n"))
}

fn main() -> ExitCode {
    let script = stored::script();
    let words: Vec<_> = std::env::args_os().skip(1).collect();
    let written = match &words[..] {
        [] => io::stdout().lock().write_all(&script.bytes),
        [word] if word == "--count" => {
            count(&script).and_then(|text| io::stdout().lock().write_all(text.as_bytes()))
        }
        _ => {
            eprintln!("usage: scripts [--count]");
            return ExitCode::from(2);
        }
    };
    match written {
        Ok(()) => ExitCode::SUCCESS,
        Err(_) => ExitCode::FAILURE,
    }
}
