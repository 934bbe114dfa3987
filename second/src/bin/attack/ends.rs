//! Small scripts of odd bytes, and scripts that end anywhere.

use crate::program::{ended, Programs};
use crate::{Attacks, Met};
use std::process::Stdio;

/// The examples, with lines of every kind.
pub const EXAMPLES: [&str; 5] = [
    include_str!("../../../../examples/estate.site"),
    include_str!("../../../../examples/lists.site"),
    include_str!("../../../../examples/book.site"),
    include_str!("../../../../examples/check.site"),
    include_str!("../../../../examples/script.site"),
];

pub fn make(attacks: &mut Attacks) -> Met {
    attacks.make("scripts without an answer", |programs| {
        for script in [
            &b""[..],
            b"\n",
            b"\n\n\n",
            b" ",
            b"\t\r\n \r",
            b"#",
            b"  # x\n#",
            b"#\0",
        ] {
            let right = programs.right(script)?;
            if !right.is_empty() {
                return Err(format!("{script:?} has an answer"));
            }
            programs.answers(script)?;
        }
        Ok(())
    })?;
    attacks.make(
        "every byte as a line, a word and a part of a word",
        |programs| {
            let mut script = b"net 0 1 / 0\n".to_vec();
            for byte in 0..=255 {
                for line in [&[byte][..], &[b'p', byte], &[byte, b'p', b'i', b'c', b'k']] {
                    script.extend_from_slice(line);
                    script.extend_from_slice(b"\npath ");
                    script.extend_from_slice(line);
                    script.extend_from_slice(b"\npath 0");
                    script.extend_from_slice(line);
                    script.push(b'\n');
                }
            }
            programs.answers(&script)
        },
    )?;
    attacks.make("bytes that are no text", |programs| {
        programs.answers(b"\0\n\0\0\0\nnet\0 0 /\nnet 0 / \0\nnet 0 0 /\0\nnet 0 0 /\npath\0\npath \0\n\xef\xbb\xbfpath\npath \xff\n\x00")?;
        programs.answers("\u{feff}net 0 0 /\nnet\u{a0}0 0 /\nnet \u{ff10} /\u{2028}net 0 0 /\u{85}".as_bytes())?;
        programs.answers(b"net 0 0 /\r\npath\r\n\rpath\r\npath\x0b\npath\x0c\npath\rpath")
    })?;
    attacks.make("examples that end at any byte", |programs| {
        let script = EXAMPLES[4].as_bytes();
        (0..=script.len()).try_for_each(|end| programs.answers(&script[..end]))
    })?;
    attacks.make("examples, by standard input and as files", |programs| {
        for example in EXAMPLES {
            programs.answers(example.as_bytes())?;
            let path = programs.file("example.site", example.as_bytes())?;
            let ended = ended(programs.planner().arg(path), |_| Ok(()))?;
            ended.answered(&programs.right(example.as_bytes())?)?;
        }
        Ok(())
    })?;
    attacks.make("the last line without a line feed, by a file", |programs| {
        for script in [
            &b"foo\nbar"[..],
            b"foo\nbar\n",
            b"\n\nfoo\n#",
            b"foo\n ",
            b"foo\n\0",
        ] {
            let path = programs.file("last.site", script)?;
            let ended = ended(programs.planner().arg(path), |_| Ok(()))?;
            ended.answered(&programs.right(script)?)?;
        }
        Ok(())
    })?;
    attacks.make("nothing on standard input", |programs| {
        ended(programs.planner().stdin(Stdio::null()), |_| Ok(()))?.answered(b"")
    })?;
    attacks.make("a script after trouble on each of its lines", after_trouble)
}

/// Each line of the examples, with faulty lines before it, answers as it does without them but for the numbers of lines.
fn after_trouble(programs: &Programs) -> Met {
    let faults: [&[u8]; 8] = [
        b"foo",
        b"net 1 2 / x",
        b"net 0 2 1 / 0",
        b"grades 1 2 3 4294967296",
        b"poke label 65535 1",
        b"list bucket 0 0",
        b"\0",
        b"route 1 2 3",
    ];
    for example in EXAMPLES {
        let mut script = Vec::new();
        for line in example.lines() {
            for fault in faults {
                script.extend_from_slice(fault);
                script.push(b'\n');
            }
            script.extend_from_slice(line.as_bytes());
            script.push(b'\n');
        }
        programs.answers(&script)?;
        let clean = programs.right(example.as_bytes())?;
        let told = programs.right(&script)?;
        let lines = |bytes: &[u8]| -> Vec<String> {
            let text = String::from_utf8_lossy(bytes).into_owned();
            text.lines().map(without_number).collect()
        };
        let told = lines(&told);
        let mut rest = told.iter();
        for line in lines(&clean) {
            if !rest.any(|other| *other == line) {
                return Err(format!("{line:?} is no answer after trouble"));
            }
        }
    }
    Ok(())
}

/// An answer, without the number of its line.
fn without_number(answer: &str) -> String {
    match answer.strip_prefix("error line ") {
        Some(rest) => rest
            .trim_start_matches(|c: char| c.is_ascii_digit())
            .to_string(),
        None => answer.to_string(),
    }
}
