//! Arguments that name no script, or an odd one.

use crate::program::{ended, fed, written, Programs};
use crate::{Attacks, Met};
use std::ffi::{OsStr, OsString};
use std::os::unix::ffi::OsStringExt;
use std::path::Path;

const SCRIPT: &[u8] = b"net 0 2 3 5 5 / 1 2 3 1 3\n\nfoo\ngrades 4 1 1 2 5\npath 1 3 2";

pub fn make(attacks: &mut Attacks) -> Met {
    attacks.make("--help", |programs| {
        let help = with(programs, &["--help"])?;
        help.answered(&help.output)?;
        if !help.output.starts_with(b"usage: planner") || !help.output.ends_with(b"\n") {
            return Err("the help is no help".to_string());
        }
        Ok(())
    })?;
    for option in ["--foo", "-h", "-", "--", "--help=1", "-\n"] {
        attacks.make(&format!("the option {option:?}"), |programs| {
            let name = format!("./{option:?}");
            with(programs, &[option])?.failed_at_once(&["no such option", "--help", &name])
        })?;
    }
    for words in [&["--help", "x"][..], &["a", "b"], &["", "", ""]] {
        attacks.make(&format!("the arguments {words:?}"), |programs| {
            with(programs, words)?.failed_at_once(&["one script at a time", "--help"])
        })?;
    }
    attacks.make("a missing file", |programs| {
        let ended = with(programs, &["/nowhere/x.site"])?;
        ended.failed_at_once(&["cannot open \"/nowhere/x.site\":", "No such file"])
    })?;
    attacks.make("an empty name", |programs| {
        with(programs, &[""])?.failed_at_once(&["cannot open \"\":", "No such file"])
    })?;
    attacks.make("a name that goes through a file", |programs| {
        let path = programs.file("plain.site", b"")?.join("x");
        with(programs, &[path])?.failed_at_once(&["cannot open", "Not a directory"])
    })?;
    attacks.make("a directory", |programs| {
        let ended = with(programs, &["/"])?;
        ended.failed_at_once(&["cannot read line 1 of \"/\":", "Is a directory"])
    })?;
    attacks.make("a file that cannot be read", |programs| {
        let ended = with(programs, &["/proc/self/mem"])?;
        ended.failed_at_once(&["cannot read line 1 of \"/proc/self/mem\":", "error"])
    })?;
    attacks.make("a file without leave to read it", |programs| {
        let path = programs.file("shut.site", SCRIPT)?;
        let ended = fed(
            programs
                .planner_after("chmod 000 \"$2\"; [ -r \"$2\" ] && set -- \"$1\" /proc/self/mem")
                .arg(&path),
            b"",
        )?;
        // The one who may do all may read it too, and has another file then.
        ended.failed_at_once(&["cannot ", "error"])
    })?;
    attacks.make("names that are too long", |programs| {
        for length in [300, 5000, 100_000] {
            let ended = with(programs, &["x".repeat(length)])?;
            ended.failed_at_once(&["cannot open \"xxx", "File name too long"])?;
        }
        Ok(())
    })?;
    attacks.make("a name that is no text", |programs| {
        let name = OsString::from_vec(b"\xff\xfe".to_vec());
        with(programs, &[name])?.failed_at_once(&["cannot read the arguments as text:"])
    })?;
    attacks.make("names that would break a message into lines", |programs| {
        let saying = &["cannot open \"/nowhere/a\\nb\\u{1b}[2J\":", "No such file"];
        with(programs, &["/nowhere/a\nb\u{1b}[2J"])?.failed_at_once(saying)
    })?;
    attacks.make("files of many names", |programs| {
        let right = programs.right(SCRIPT)?;
        for name in [
            "a.site",
            "two words.site",
            "-",
            "--help",
            "\u{e9}\u{1F4E1}",
            "a\nb",
        ] {
            let path = programs.file(name, SCRIPT)?;
            with(programs, &[path])?.answered(&right)?;
            let near = Path::new(".").join(name);
            ended(
                programs.planner().current_dir(&programs.folder).arg(near),
                |_| Ok(()),
            )?
            .answered(&right)?;
        }
        Ok(())
    })?;
    attacks.make(
        "a file, with something else on standard input",
        |programs| {
            let path = programs.file("a.site", SCRIPT)?;
            fed(programs.planner().arg(path), b"bar\n")?.answered(&programs.right(SCRIPT)?)
        },
    )?;
    attacks.make("files that are none on the disk", |programs| {
        with(programs, &["/dev/null"])?.answered(b"")?;
        let right = programs.right(SCRIPT)?;
        fed(programs.planner().arg("/dev/stdin"), SCRIPT)?.answered(&right)
    })?;
    attacks.make("the help, with nowhere to write it", |programs| {
        let full = written("/dev/full")?;
        let saying = &["cannot write the help", "No space left"];
        let ended = ended(programs.planner().arg("--help").stdout(full), |_| Ok(()))?;
        ended.failed_at_once(saying)?;
        let mut shut = programs.planner_after("exec >&-");
        let saying = &["cannot write the help", "Bad file descriptor"];
        fed(shut.arg("--help"), b"")?.failed_at_once(saying)
    })
}

fn with<W: AsRef<OsStr>>(
    programs: &Programs,
    words: &[W],
) -> Result<crate::program::Ended, String> {
    ended(programs.planner().args(words), |_| Ok(()))
}
