//! The second planner: reads a site script and writes one answer line for each of its commands.
//! Beside it: the generator of scripts, and the rules by brute force.

pub mod answers;
mod book;
pub mod brute;
mod check;
mod commands;
mod engine;
mod entries;
mod faults;
pub mod generator;
mod guards;
mod kinds;
mod lists;
mod memory;
mod net;
mod planner;
mod reading;
mod script;
mod site;

use std::io::{self, BufRead, Write};

/// Carries out a whole script.
pub fn run(input: impl BufRead, output: &mut impl Write) -> io::Result<()> {
    let mut lines = script::Lines::new(input);
    let mut planner = planner::Planner::default();
    while let Some(line) = lines.read()? {
        if let Some(answer) = planner.answer(&line) {
            writeln!(output, "{answer}")?;
        }
    }
    Ok(())
}

#[cfg(test)]
mod tests {
    /// The answers to a script, as one text.
    pub fn answers(script: &[u8]) -> String {
        let mut output = Vec::new();
        super::run(script, &mut output).expect("memory can be read and written");
        String::from_utf8(output).expect("answers are text")
    }

    pub fn check(script: &str, expected: &[&str]) {
        let answers = answers(script.as_bytes());
        assert_eq!(answers.lines().collect::<Vec<_>>(), expected);
    }

    /// Checks the answers to a script after an opening whose own answers do not matter.
    pub fn check_from(opening: &str, script: &str, expected: &[&str]) {
        let answers = self::answers(format!("{opening}{script}").as_bytes());
        let opened = self::answers(opening.as_bytes()).lines().count();
        assert_eq!(answers.lines().skip(opened).collect::<Vec<_>>(), expected);
    }

    #[test]
    fn example_of_the_language() {
        check(
            "net 0 2 3 5 5 / 1 2 3 1 3\ngrades 4 1 1 2 5\npath 1 3 2\npath 1 2\nnet 0 2 1 / 0\n",
            &[
                "net ok 4 5",
                "grades 5",
                "path 4",
                "error line 4: not a path: link 2 does not begin where link 1 ends",
                "refused 3 place 0 layer net",
            ],
        );
    }

    #[test]
    fn any_bytes_are_answered() {
        let mut script = Vec::new();
        for byte in 0..=255u8 {
            script.extend_from_slice(&[b'p', b'a', b't', b'h', b' ', byte, b'\n', byte, b'\n']);
        }
        script.resize(script.len() + 1_000_000, 0xff);
        let text = answers(&script);
        assert!(text.ends_with("unknown command\n"));
        assert!(text.lines().all(|line| line.starts_with("error line ")));
    }
}
