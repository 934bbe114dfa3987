//! Standard input and output that are closed, full, slow, or go away.

use crate::program::{
    end, ended, ended_beside, fed, is_feed, same, written, Ended, Programs, LIMIT,
};
use crate::{Attacks, Met};
use std::fs::File;
use std::io::{self, BufRead, BufReader, Read, Write};
use std::os::unix::io::OwnedFd;
use std::os::unix::net::UnixStream;
use std::process::Stdio;
use std::sync::mpsc;
use std::thread;

const SCRIPT: &[u8] = b"# A script.\nnet 0 2 3 5 5 / 1 2 3 1 3\nfoo\n\ngrades 4 1 1 2 5\npath 1 3 2\nstart 0\nwork 9\nlabels\nroute 3 9\ncheck 0\n";

pub fn make(attacks: &mut Attacks) -> Met {
    attacks.make("standard input is closed", |programs| {
        let saying = &[
            "cannot read line 1 of standard input:",
            "Bad file descriptor",
        ];
        fed(&mut programs.planner_after("exec <&-"), b"")?.failed_at_once(saying)
    })?;
    attacks.make("standard input can only be written", |programs| {
        let saying = &[
            "cannot read line 1 of standard input:",
            "Bad file descriptor",
        ];
        ended(programs.planner().stdin(written("/dev/null")?), |_| Ok(()))?.failed_at_once(saying)
    })?;
    attacks.make("standard input is a directory", |programs| {
        let folder = File::open("/").map_err(|error| error.to_string())?;
        let saying = &["cannot read line 1 of standard input:", "Is a directory"];
        ended(programs.planner().stdin(folder), |_| Ok(()))?.failed_at_once(saying)
    })?;
    attacks.make("standard input fails after some bytes", reading_fails)?;
    attacks.make("standard output is closed", |programs| {
        let saying = &[
            "cannot write the answer to line 2 of standard input:",
            "Bad file descriptor",
        ];
        let mut shut = programs.planner_after("exec >&-");
        fed(&mut shut, SCRIPT)?.failed_at_once(saying)?;
        // Without an answer nothing is lost.
        let mut shut = programs.planner_after("exec >&-");
        fed(&mut shut, b"# x\n\n")?.answered(b"")
    })?;
    attacks.make(
        "standard output is closed, and a file is read",
        |programs| {
            let path = programs.file("kept.site", SCRIPT)?;
            let place = format!("cannot write the answer to line 2 of {path:?}:");
            let saying = &[&place[..], "Bad file descriptor"];
            for closing in ["exec >&-", "exec <&- >&-"] {
                let mut shut = programs.planner_after(closing);
                fed(shut.arg(&path), b"")?.failed_at_once(saying)?;
                let left = std::fs::read(&path).map_err(|error| error.to_string())?;
                same(&left, SCRIPT)?;
            }
            Ok(())
        },
    )?;
    attacks.make("standard output is full", |programs| {
        let saying = &[
            "cannot write the answer to line 2 of standard input:",
            "No space left",
        ];
        let full = written("/dev/full")?;
        fed(programs.planner().stdout(full), SCRIPT)?.failed_at_once(saying)?;
        let full = written("/dev/full")?;
        fed(programs.planner().stdout(full), b"\n#\n")?.answered(b"")
    })?;
    attacks.make("standard output can only be read", |programs| {
        let null = File::open("/dev/null").map_err(|error| error.to_string())?;
        let saying = &[
            "cannot write the answer to line 2 of standard input:",
            "Bad file descriptor",
        ];
        fed(programs.planner().stdout(null), SCRIPT)?.failed_at_once(saying)
    })?;
    attacks.make("the last answer cannot be written", |programs| {
        let full = written("/dev/full")?;
        let saying = &[
            "cannot write the answer to line 3 of standard input:",
            "No space left",
        ];
        fed(programs.planner().stdout(full), b"\n\nfoo")?.failed_at_once(saying)
    })?;
    attacks.make("nobody reads the answers", |programs| {
        let saying = &[
            "cannot write the answer to line ",
            " of standard input: Broken pipe",
        ];
        for count in [0, 1, 100, 100_000] {
            reader_goes(programs, count)?.failed(saying)?;
        }
        Ok(())
    })?;
    attacks.make("nobody reads the help", |programs| {
        let saying = &["cannot write the help: Broken pipe"];
        let (ours, theirs) = UnixStream::pair().map_err(|error| error.to_string())?;
        drop(ours);
        let command = &mut programs.planner();
        ended(
            command
                .arg("--help")
                .stdout(Stdio::from(OwnedFd::from(theirs))),
            |_| Ok(()),
        )?
        .failed_at_once(saying)
    })?;
    attacks.make("standard output takes a part of an answer", writing_fails)?;
    attacks.make("standard output is a file that may not grow", |programs| {
        let path = programs.file("small.txt", b"")?;
        let limit = "trap '' XFSZ\nulimit -f 1 || exit 99\nexec >\"$2\"\nset -- \"$1\"";
        let script = b"foo\nbar\n\n".repeat(100);
        let ended = fed(programs.planner_after(limit).arg(&path), &script)?;
        let message = ended.failed(&["cannot write the answer to line ", "File too large"])?;
        let output = std::fs::read(&path).map_err(|error| error.to_string())?;
        begun(programs, &script, &output, &message)
    })?;
    attacks.make("standard error is closed or full", |programs| {
        for closing in [
            "exec 2>&-",
            "exec 2>/dev/full",
            "exec 2>&- >/dev/full",
            "exec <&- >&- 2>&-",
        ] {
            let mut shut = programs.planner_after(closing);
            let ended = fed(shut.arg("/nowhere"), b"")?;
            if ended.status.code() != Some(1) {
                return Err(format!("{closing}: {}", ended.told()));
            }
        }
        let path = programs.file("kept.site", SCRIPT)?;
        let mut shut = programs.planner_after("exec 2>&-");
        fed(shut.arg(path), b"")?.answered(&programs.right(SCRIPT)?)
    })?;
    attacks.make(
        "each answer is out before the next line is read",
        one_by_one,
    )?;
    attacks.make("a script byte by byte", |programs| {
        let right = programs.right(SCRIPT)?;
        let bytes =
            |input: &mut dyn Write| SCRIPT.chunks(1).try_for_each(|byte| input.write_all(byte));
        ended(programs.planner().stdin(Stdio::piped()), bytes)?.answered(&right)
    })?;
    attacks.make("many answers that are read late", |programs| {
        let script = "foo\n".repeat(30_000).into_bytes();
        programs.answers(&script)
    })
}

/// A standard input that holds bytes, is not closed, and fails rather than wait for more.
fn reading_fails(programs: &Programs) -> Met {
    let fails = |bytes: &[u8]| -> Result<Ended, String> {
        let told = |error: io::Error| error.to_string();
        let (mut ours, theirs) = UnixStream::pair().map_err(told)?;
        ours.write_all(bytes).map_err(told)?;
        theirs.set_nonblocking(true).map_err(told)?;
        ended(
            programs.planner().stdin(Stdio::from(OwnedFd::from(theirs))),
            |_| Ok(()),
        )
    };
    for bytes in [
        &b""[..],
        b"foo",
        b"foo\n",
        b"foo\nba",
        SCRIPT,
        &SCRIPT[..50],
    ] {
        let line = bytes.iter().filter(|byte| is_feed(byte)).count() + 1;
        let ended = fails(bytes)?;
        let place = format!("cannot read line {line} of standard input:");
        ended.failed(&[&place, "temporarily unavailable"])?;
        let whole = bytes.iter().rposition(is_feed).map_or(0, |feed| feed + 1);
        same(&ended.output, &programs.right(&bytes[..whole])?)?;
    }
    Ok(())
}

/// A standard output that has little room and fails rather than wait for more: what it took is the beginning of the right answers.
fn writing_fails(programs: &Programs) -> Met {
    let told = |error: io::Error| error.to_string();
    let (mut ours, theirs) = UnixStream::pair().map_err(told)?;
    theirs.set_nonblocking(true).map_err(told)?;
    let mut script = b"net 0 0 /\nresize labels 65535\n".to_vec();
    script.extend_from_slice(&b"labels\n".repeat(40));
    let mut planner = programs.planner();
    planner.stdout(Stdio::from(OwnedFd::from(theirs)));
    let ended = fed(&mut planner, &script)?;
    drop(planner);
    let message = ended.failed(&[
        "cannot write the answer to line ",
        "temporarily unavailable",
    ])?;
    let mut output = Vec::new();
    ours.read_to_end(&mut output).map_err(told)?;
    begun(programs, &script, &output, &message)
}

/// Asks that what came out is all answers to the lines before the one that the message names, and no more than a part of that line's answer.
fn begun(programs: &Programs, script: &[u8], output: &[u8], message: &str) -> Met {
    let line = line_of(message)?;
    let right = |lines| {
        let lines: Vec<&[u8]> = script.split_inclusive(is_feed).take(lines).collect();
        programs.right(&lines.concat())
    };
    let (before, after) = (right(line.saturating_sub(1))?, right(line)?);
    let is_part = after.starts_with(output) && output.len() < after.len();
    if before.is_empty() || !output.starts_with(&before) || !is_part {
        return Err(format!(
            "{} bytes of answers do not fit {message:?}",
            output.len()
        ));
    }
    Ok(())
}

/// The line that a message names.
pub fn line_of(message: &str) -> Result<usize, String> {
    let mut words = message
        .split(' ')
        .skip_while(|&word| word != "line")
        .skip(1);
    let line = words.next().and_then(|word| word.parse().ok());
    line.ok_or(format!("{message:?} names no line"))
}

/// The planner on a script without an end, whose reader goes after so many bytes.
fn reader_goes(programs: &Programs, count: usize) -> Result<Ended, String> {
    let (gone, goes) = mpsc::channel();
    let script = move |input: &mut dyn Write| {
        if count == 0 {
            let _ = goes.recv_timeout(LIMIT);
        }
        loop {
            input.write_all(b"foo\n\nnet 0 1 / 0\n")?;
        }
    };
    ended_beside(programs.planner().stdin(Stdio::piped()), script, |child| {
        let output = child.stdout.take();
        thread::spawn(move || {
            let read = output.map(|mut output| {
                let mut bytes = vec![0; count];
                output.read_exact(&mut bytes)
            });
            let _ = gone.send(read.is_some());
        });
    })
}

/// Reads an answer before the next line is written, as somebody who types does.
fn one_by_one(programs: &Programs) -> Met {
    let right = programs.right(SCRIPT)?;
    let told = |error: io::Error| error.to_string();
    let mut child = programs
        .planner()
        .stdin(Stdio::piped())
        .spawn()
        .map_err(told)?;
    let (answer, answers) = mpsc::channel();
    let output = child.stdout.take();
    thread::spawn(move || {
        for line in output
            .map(BufReader::new)
            .into_iter()
            .flat_map(|it| it.split(b'\n'))
        {
            if !line.map_or(false, |line| answer.send(line).is_ok()) {
                break;
            }
        }
    });
    let mut asked = || -> Met {
        let input = child.stdin.as_mut().ok_or("no input")?;
        let mut wanted = right.split(is_feed);
        for line in SCRIPT.split_inclusive(is_feed) {
            input.write_all(line).map_err(told)?;
            if line == b"\n" || line[0] == b'#' {
                continue;
            }
            let got = answers.recv_timeout(LIMIT).map_err(|_| {
                format!(
                    "{:?} is not answered before the next line",
                    String::from_utf8_lossy(line)
                )
            })?;
            same(&got, wanted.next().unwrap_or_default())?;
        }
        Ok(())
    };
    let asked = asked();
    drop(child.stdin.take());
    if asked.is_err() {
        let _ = child.kill();
    }
    let status = end(&mut child)?;
    asked?;
    if status.code() != Some(0) {
        return Err(format!("it ended with {status}"));
    }
    Ok(())
}
