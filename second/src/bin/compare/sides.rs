//! The two planners, and where their answers differ or break a rule.

use second::answers::{answered, answers};
use second::brute::judge::{Judge, Judged};
use std::io::{self, Read, Write};
use std::path::Path;
use std::process::{Command, Stdio};
use std::thread;

pub struct Sides<'a> {
    pub planner: &'a Path,
}

/// The first line that has two answers, or one that breaks a rule.
#[derive(Debug, PartialEq)]
pub struct Difference {
    /// From 1, in the whole script.
    pub line: usize,
    /// Where that line begins.
    pub byte: usize,
    pub text: Vec<u8>,
    pub ours: Vec<u8>,
    pub theirs: Vec<u8>,
    /// What is wrong where both answer alike.
    pub why: Option<String>,
}

impl Sides<'_> {
    pub fn ours(&self, script: &[u8]) -> io::Result<Vec<u8>> {
        let mut output = Vec::new();
        second::run(script, &mut output)?;
        Ok(output)
    }

    /// What the program writes. How it ended badly, if it did, is one answer more.
    pub fn theirs(&self, script: &[u8]) -> io::Result<Vec<u8>> {
        let mut child = Command::new(self.planner)
            .stdin(Stdio::piped())
            .stdout(Stdio::piped())
            .spawn()?;
        let (input, output) = (child.stdin.take(), child.stdout.take());
        let mut answers = Vec::new();
        thread::scope(|scope| {
            // A program that ends early does not read all. It shows by its answers.
            scope.spawn(move || input.map(|mut input| input.write_all(script)));
            output.map_or(Ok(0), |mut output| output.read_to_end(&mut answers))
        })?;
        let status = child.wait()?;
        if !status.success() {
            answers.extend_from_slice(format!("(the program ended: {status})\n").as_bytes());
        }
        Ok(answers)
    }

    pub fn differ(&self, script: &[u8]) -> io::Result<Option<Difference>> {
        let (ours, theirs) = (self.ours(script)?, self.theirs(script)?);
        let broken = || judge(script, &theirs, &mut Judged::new());
        Ok(first_difference(script, &ours, &theirs).or_else(broken))
    }
}

/// The first answer that breaks a rule. What was judged is counted.
pub fn judge(script: &[u8], theirs: &[u8], judged: &mut Judged) -> Option<Difference> {
    let mut judge = Judge::default();
    for ((line, text), answer) in answered(script).zip(answers(theirs)) {
        if let Err(why) = judge.hear(text, answer) {
            let mut found = difference(script, line, text, Some(answer), Some(answer));
            found.why = Some(why);
            return Some(found);
        }
    }
    for (what, count) in judge.judged {
        *judged.entry(what).or_insert(0) += count;
    }
    None
}

pub fn first_difference(script: &[u8], ours: &[u8], theirs: &[u8]) -> Option<Difference> {
    if ours == theirs {
        return None;
    }
    let (mut our, mut their) = (answers(ours), answers(theirs));
    for (line, text) in answered(script) {
        let (our, their) = (our.next(), their.next());
        if our != their {
            return Some(difference(script, line, text, our, their));
        }
    }
    // Beyond the last line, or in line feeds alone.
    let line = script.iter().filter(|&&byte| byte == b'\n').count();
    Some(difference(
        script,
        line,
        b"(the end)",
        our.next(),
        their.next(),
    ))
}

fn difference(
    script: &[u8],
    line: usize,
    text: &[u8],
    ours: Option<&[u8]>,
    theirs: Option<&[u8]>,
) -> Difference {
    let lines = script.split_inclusive(|&byte| byte == b'\n');
    let told = |answer: Option<&[u8]>| answer.unwrap_or(b"(no answer)").to_vec();
    Difference {
        line,
        byte: lines.take(line - 1).map(<[u8]>::len).sum(),
        text: text.to_vec(),
        ours: told(ours),
        theirs: told(theirs),
        why: None,
    }
}

#[cfg(test)]
mod tests {
    use super::*;

    fn found(ours: &[u8], theirs: &[u8]) -> Option<(usize, usize, String, String)> {
        let text = |bytes: Vec<u8>| String::from_utf8(bytes).expect("text");
        first_difference(b"a\n#\nb\nc\n", ours, theirs)
            .map(|found| (found.line, found.byte, text(found.ours), text(found.theirs)))
    }

    #[test]
    fn the_first_line_with_two_answers() {
        let told = |line, byte, ours: &str, theirs: &str| {
            Some((line, byte, ours.to_string(), theirs.to_string()))
        };
        assert_eq!(found(b"1\n2\n3\n", b"1\n2\n3\n"), None);
        assert_eq!(found(b"1\n2\n3\n", b"1\n4\n3\n"), told(3, 4, "2", "4"));
        assert_eq!(found(b"1\n2\n3\n", b""), told(1, 0, "1", "(no answer)"));
        assert_eq!(
            found(b"1\n2\n3\n", b"1\n2\n"),
            told(4, 6, "3", "(no answer)")
        );
        assert_eq!(
            found(b"1\n2\n3\n", b"1\n2\n3\n4\n"),
            told(4, 6, "(no answer)", "4")
        );
        assert_eq!(
            found(b"1\n2\n3\n", b"1\n2\n3"),
            told(4, 6, "(no answer)", "(no answer)")
        );
    }

    #[test]
    fn answers_that_break_a_rule() {
        let script = b"# A list.\nnet 0 0 0 /\nenter 1\nenter 0\npick\n";
        let mut judged = Judged::new();
        let right = b"net ok 2 0\nenter new\nenter new\npick 1\n";
        assert_eq!(judge(script, right, &mut judged), None);
        assert_eq!(judged.get("entries by hand"), Some(&2));
        let wrong = b"net ok 2 0\nenter new\nenter new\npick 0\n";
        let found = judge(script, wrong, &mut judged).expect("the first that entered comes first");
        assert_eq!((found.line, found.byte), (5, 38));
        assert!(found.why.is_some());
    }

    #[test]
    fn a_program_that_repeats_its_script_answers_wrongly() {
        let planner = Path::new("cat");
        let sides = Sides { planner };
        let script = b"net 0 0 /\n\nstart 0\nask 0\n";
        assert_eq!(sides.theirs(script).expect("cat can be run"), script);
        let small = crate::smallest::script(&sides, script).expect("cat can be run");
        assert_eq!(small, b"net 0 0 /\n");
    }
}
