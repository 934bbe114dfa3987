//! Too little memory: some lines are answered so, and the others as if those had not been; or the program ends and says where. And little stack.

use crate::program::{fed, is_feed, same, Ended, Programs};
use crate::streams::line_of;
use crate::{Attacks, Met};

pub fn make(attacks: &mut Attacks, right: &[u8]) -> Met {
    attacks.make("the whole script on a stack of 256 kilobytes", |programs| {
        let path = programs.file("whole.site", right)?;
        let mut planner = programs.planner_after("ulimit -s 256 || exit 99");
        fed(planner.arg(path), b"")?.answered(&programs.right(right)?)
    })?;
    attacks.make(
        "a file without an end or a line feed, in 100,000 kilobytes",
        |programs| {
            let saying = &["cannot read line 1 of \"/dev/zero\":", "out of memory"];
            limited(programs, 100_000, &["/dev/zero"], b"")?.failed_at_once(saying)
        },
    )?;
    let mut seen = [false; 3];
    for (name, script) in [
        ("long lines", long_lines()),
        ("long answers", long_answers()),
    ] {
        attacks.make(&format!("limits of memory on {name}"), |programs| {
            sweep(programs, &script.into_bytes(), &mut seen)
        })?;
    }
    attacks.make("limits of memory of every effect", |_| match seen {
        [true, true, true] => Ok(()),
        _ => Err(format!("of {EFFECTS:?} came {seen:?}")),
    })
}

/// What a limit of memory may come to: an answer, or the message with which the program ends.
const EFFECTS: [&str; 3] = [
    "answered: out of memory",
    "cannot read line",
    "cannot answer line",
];

/// Lines that want little memory, and between them lines that want much of it in each way that there is.
fn long_lines() -> String {
    let much = 200_000;
    [
        "net 0 2 3 5 5 / 1 2 3 1 3\ngrades 4 1 1 2 5\nstart 0\nwork 3",
        &format!("path{}", " 1".repeat(much)),
        "labels",
        &format!("#{}", " 1".repeat(2 * much)),
        "waiting",
        &format!("grades{}", " 7".repeat(much)),
        "ask 3\nresize grades 5\nregrade 2 3",
        &format!("net 0 60000 /{}", " 0".repeat(60_000)),
        "work 9\nroute 3 9\nkind margin\nstart 1",
        &"x".repeat(3 * much),
        "list bucket 2 5\nenter 1\nentries\nfoo\nlabels",
    ]
    .join("\n")
}

/// Short lines, some of which have long answers.
fn long_answers() -> String {
    let long = "resize labels 65535\nlabels\nresize labels 4\nresize entries 65535\nentries\nfoo\nresize entries 4\nlabels\nentries\n";
    format!("net 0 2 3 5 5 / 1 2 3 1 3\nkind chance\nfoo\n{long}start 0\n{long}")
}

fn limited(
    programs: &Programs,
    kilobytes: usize,
    words: &[&str],
    script: &[u8],
) -> Result<Ended, String> {
    let mut planner = programs.planner_after(&format!("ulimit -v {kilobytes} || exit 99"));
    fed(planner.env_clear().args(words), script)
}

fn sweep(programs: &Programs, script: &[u8], seen: &mut [bool; 3]) -> Met {
    let right = programs.right(script)?;
    // The least memory in which the program starts.
    let starts = |kilobytes| -> Result<bool, String> {
        let ended = limited(programs, kilobytes, &["--help"], b"")?;
        Ok(ended.status.code() == Some(0))
    };
    let (mut low, mut high) = (500, 200_000);
    if !starts(high)? {
        return Err(format!("it does not start in {high} kilobytes"));
    }
    while high - low > 4 {
        let middle = (low + high) / 2;
        if starts(middle)? {
            high = middle;
        } else {
            low = middle;
        }
    }
    // Steps that grow: the first allocations are small.
    let (mut more, mut step) = (8, 4);
    while more < 100_000 {
        let at = |why| format!("with {} kilobytes: {why}", high + more);
        let ended = limited(programs, high + more, &[], script)?;
        if ended.output == right && ended.status.code() == Some(0) {
            ended.answered(&right).map_err(at)?;
            return Ok(());
        }
        judged(programs, script, &ended, seen).map_err(at)?;
        more += step;
        step += step / 16 + 4;
    }
    Err(format!(
        "with {} kilobytes some lines still found no memory",
        high + more
    ))
}

/// Asks that a script, of which some lines found no memory, was answered as without those lines.
fn judged(programs: &Programs, script: &[u8], ended: &Ended, seen: &mut [bool; 3]) -> Met {
    let mut lines: Vec<&[u8]> = script.split(is_feed).collect();
    let mut message = String::new();
    if ended.status.code() != Some(0) {
        message = ended.failed(&["cannot ", "emory"])?;
        // None is named where the program stops before the first.
        lines.truncate(line_of(&message).unwrap_or(1).saturating_sub(1));
    }
    // The lines that found no memory are those whose answer says so.
    let mut blanked = lines.clone();
    let mut kept = Vec::new();
    for answer in ended.output.split_inclusive(is_feed) {
        match short_of_memory(answer) {
            Some(line) => {
                *blanked
                    .get_mut(line.wrapping_sub(1))
                    .ok_or(format!("line {line} found no memory, and there is none"))? = b"";
                message.push_str(EFFECTS[0]);
            }
            None => kept.extend_from_slice(answer),
        }
    }
    for (seen, effect) in seen.iter_mut().zip(EFFECTS) {
        *seen = *seen || message.contains(effect);
    }
    same(&kept, &programs.right(&blanked.join(&b'\n'))?)
}

/// The line that an answer says found no memory.
fn short_of_memory(answer: &[u8]) -> Option<usize> {
    let text = std::str::from_utf8(answer).ok()?;
    let line = text.strip_prefix("error line ")?;
    line.strip_suffix(": out of memory\n")?.parse().ok()
}
