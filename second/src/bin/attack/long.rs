//! Lines, words and scripts of great length.

use crate::program::{ended, Programs};
use crate::{Attacks, Met};
use std::io::Write;
use std::process::Stdio;

const MILLION: usize = 1_000_000;

/// A small site, on which the lines after a long one are tried.
const SITE: &[u8] = b"net 0 2 3 5 5 / 1 2 3 1 3\ngrades 4 1 1 2 5\nstart 0\nwork 3\n";
const AFTER: &[u8] = b"\nlabels\nentries\nwaiting\npath 1 3 2\nwork 9\ncheck 0\nfoo\n";

pub fn make(attacks: &mut Attacks) -> Met {
    for byte in [b'x', 0, b' ', b'#', b'0', b'-', 0xff] {
        attacks.make(&format!("a line of 4,000,000 bytes {byte}"), |programs| {
            beside(programs, &vec![byte; 4 * MILLION])
        })?;
    }
    attacks.make("words of a million digits", |programs| {
        let (nines, noughts) = ("9".repeat(MILLION), "0".repeat(MILLION));
        let mut lines = Vec::new();
        for number in [
            &nines,
            &noughts,
            &format!("{noughts}2"),
            &format!("-{noughts}"),
            &format!("{noughts}x"),
        ] {
            for before in [
                "path ",
                "grades 1 1 1 1 ",
                "start ",
                "poke label 1 ",
                "regrade 1 ",
                "ask ",
                "",
            ] {
                lines.extend_from_slice(format!("{before}{number}\n").as_bytes());
            }
        }
        beside(programs, &lines)
    })?;
    attacks.make("comments and names of a million bytes", |programs| {
        let long = "y".repeat(MILLION);
        let lines = format!("#{long}\n  #{long} {long}\npath{long}\nlist {long}\npoke {long} 1 1\nlabels {long}\nnet {long}\n");
        beside(programs, lines.as_bytes())
    })?;
    for command in [
        "grades", "path", "net", "net 0 /", "labels", "#", "start", "list", "route 1",
    ] {
        attacks.make(&format!("{command} with 500,000 words"), |programs| {
            let line = format!("{command}{}", " 1".repeat(500_000));
            beside(programs, line.as_bytes())
        })?;
    }
    attacks.make("the longest net, and one link more", |programs| {
        for links in [65_535, 65_536, 70_000] {
            let line = format!("net 0 {links} / {}", "0 ".repeat(links));
            beside(programs, line.as_bytes())?;
            let line = format!("net{} /", " 0".repeat(links));
            beside(programs, line.as_bytes())?;
        }
        Ok(())
    })?;
    attacks.make(
        "100,000 lines without an answer, and then one",
        |programs| {
            let mut script = b"\n# x\n \t\n#\n\r\n".repeat(20_000);
            script.extend_from_slice(b"foo\n\nbar");
            programs.answers(&script)
        },
    )?;
    attacks.make("5,000 nets, one after another", |programs| {
        let mut script = Vec::new();
        for count in 0..5000 {
            let links = count % 37;
            let line = format!("net 0 {links} /{}\nlabels\npath 0\n", " 1".repeat(links));
            script.extend_from_slice(line.as_bytes());
        }
        programs.answers(&script)
    })?;
    attacks.make("100,000,000 bytes without a line feed", |programs| {
        let part = vec![b'z'; MILLION];
        let fed = |input: &mut dyn Write| (0..100).try_for_each(|_| input.write_all(&part));
        let ended = ended(programs.planner().stdin(Stdio::piped()), fed)?;
        ended.answered(b"error line 1: unknown command\n")
    })
}

/// Asks that long lines are answered rightly, and that the lines after them are too.
fn beside(programs: &Programs, lines: &[u8]) -> Met {
    programs.answers(&[lines, b"\n", SITE, lines, AFTER, lines].concat())
}
