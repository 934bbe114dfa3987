//! Scripts beside their answers: which lines are answered, and how many answers of each sort.

use std::collections::BTreeMap;
use std::fmt;

/// The commands, in the order in which they are told.
const COMMANDS: [&str; 20] = [
    "net",
    "kind",
    "grades",
    "list",
    "path",
    "start",
    "work",
    "regrade",
    "ask",
    "route",
    "check",
    "labels",
    "entries",
    "poke",
    "resize",
    "enter",
    "pick",
    "empty",
    "waiting",
    "other words",
];

/// The lines that have an answer, each with its number, from 1.
pub fn answered(script: &[u8]) -> impl Iterator<Item = (usize, &[u8])> {
    // What stands after the last line feed is a line only if there is something.
    let lines = script.strip_suffix(b"\n").unwrap_or(script);
    let lines = lines.split(|&byte| byte == b'\n').enumerate();
    lines.filter_map(|(place, line)| {
        let first = words(line).next()?;
        (!first.starts_with(b"#")).then_some((place + 1, line))
    })
}

/// The words of a line.
pub fn words(line: &[u8]) -> impl Iterator<Item = &[u8]> {
    line.split(|byte| matches!(byte, 9 | 13 | 32))
        .filter(|word| !word.is_empty())
}

/// The answers, one to a line.
pub fn answers(output: &[u8]) -> impl Iterator<Item = &[u8]> {
    let lines = output.strip_suffix(b"\n").unwrap_or(output);
    let none = output.is_empty();
    lines.split(|&byte| byte == b'\n').filter(move |_| !none)
}

/// How a line was answered.
#[derive(Clone, Copy, PartialEq, Eq, PartialOrd, Ord)]
enum Outcome {
    Accepted,
    Error,
    Refused(u8),
}

fn outcome(answer: &[u8]) -> Outcome {
    let mut words = words(answer);
    match (words.next(), words.next()) {
        (Some(b"error"), _) => Outcome::Error,
        (Some(b"refused"), Some(number)) => {
            let number = std::str::from_utf8(number).ok();
            Outcome::Refused(number.and_then(|number| number.parse().ok()).unwrap_or(0))
        }
        _ => Outcome::Accepted,
    }
}

/// How many answers there were of each sort, for each command.
#[derive(Default)]
pub struct Tally {
    counts: BTreeMap<(usize, Outcome), usize>,
}

impl Tally {
    pub fn add(&mut self, line: &[u8], answer: &[u8]) {
        let name = words(line).next().unwrap_or(b"");
        let command = COMMANDS
            .iter()
            .position(|command| command.as_bytes() == name)
            .unwrap_or(COMMANDS.len() - 1);
        *self.counts.entry((command, outcome(answer))).or_insert(0) += 1;
    }

    pub fn answers(&self) -> usize {
        self.counts.values().sum()
    }

    fn count(&self, command: usize, outcome: Outcome) -> usize {
        self.counts.get(&(command, outcome)).copied().unwrap_or(0)
    }
}

/// A row for each command.
impl fmt::Display for Tally {
    fn fmt(&self, f: &mut fmt::Formatter) -> fmt::Result {
        writeln!(
            f,
            "{:11} {:>9} {:>9}  refused",
            "command", "accepted", "errors"
        )?;
        for (command, name) in COMMANDS.iter().enumerate() {
            let accepted = self.count(command, Outcome::Accepted);
            let errors = self.count(command, Outcome::Error);
            let mut row = format!("{name:11} {accepted:9} {errors:9}  ");
            for (&(_, outcome), count) in self.counts.iter().filter(|((of, _), _)| *of == command) {
                if let Outcome::Refused(number) = outcome {
                    row += &format!("by {number}: {count}, ");
                }
            }
            writeln!(f, "{}", row.trim_end_matches([',', ' ']))?;
        }
        Ok(())
    }
}

#[cfg(test)]
mod tests {
    use super::*;

    #[test]
    fn lines_without_a_word_and_comments_are_not_answered() {
        let script = b"\n# a\n #b\nnet\n \t\r\n\r#c\n\x0b\nx y\n\n";
        let found: Vec<_> = answered(script).collect();
        let expected: [(usize, &[u8]); 3] = [(4, b"net"), (7, b"\x0b"), (8, b"x y")];
        assert_eq!(found, expected);
        assert_eq!(answered(b"").count(), 0);
        assert_eq!(answered(b"a\nb").count(), 2);
        assert_eq!(crate::tests::answers(script).lines().count(), 3);
    }

    #[test]
    fn answers_are_counted_by_their_sort() {
        let mut tally = Tally::default();
        tally.add(b" net 0 0 /", b"net ok 1 0");
        tally.add(b"net 0 /", b"refused 1 place 0 layer net");
        tally.add(b"net 0 /", b"refused 1 place 0 layer net");
        tally.add(b"net 0 1 /", b"refused 3 place 0 layer net");
        tally.add(b"nets", b"error line 5: unknown command");
        assert_eq!(tally.answers(), 5);
        let text = tally.to_string();
        let rows: Vec<Vec<&str>> = text
            .lines()
            .map(|row| row.split(' ').filter(|word| !word.is_empty()).collect())
            .collect();
        assert_eq!(
            rows[1],
            ["net", "1", "0", "by", "1:", "2,", "by", "3:", "1"]
        );
        assert_eq!(rows[20], ["other", "words", "0", "1"]);
    }
}
