//! Compares the proved program with the second planner on fresh rows at random.

mod options;
mod sides;
mod smallest;

use options::{Asked, Options};
use second::answers::{answered, answers, Tally};
use second::brute::judge::Judged;
use second::generator::dice::Dice;
use second::generator::rows::{self, Row};
use second::generator::script::Script;
use sides::{first_difference, judge, Difference, Sides};
use std::process::ExitCode;
use std::{fs, io};

/// So many rows go to the planners at a time.
const AT_ONCE: u64 = 500;

/// What was compared.
#[derive(Default)]
struct Compared {
    rows: Vec<Row>,
    lines: usize,
    tally: Tally,
    judged: Judged,
}

impl Compared {
    fn add(&mut self, script: Script, ours: &[u8]) {
        self.lines += feeds(&script.bytes);
        for ((_, line), answer) in answered(&script.bytes).zip(answers(ours)) {
            self.tally.add(line, answer);
        }
        self.rows.extend(script.rows);
    }

    fn tell(&self) {
        print!("{}{}", rows::counted(&self.rows), self.tally);
        for (what, count) in &self.judged {
            println!("{count:9} judged by brute force: {what}");
        }
        println!(
            "no difference in {} rows, {} lines, {} answers",
            self.rows.len(),
            self.lines,
            self.tally.answers()
        );
    }
}

fn fresh(seed: u64, numbers: impl Iterator<Item = u64>) -> Script {
    let mut script = Script::new(Dice::of(seed, 0));
    for number in numbers {
        script.fresh_row(seed, number);
    }
    script
}

/// Tells a difference, and writes the smallest script that still shows one.
fn tell(
    options: &Options,
    sides: &Sides,
    first: u64,
    script: &Script,
    difference: &Difference,
) -> io::Result<()> {
    let place = script
        .rows
        .iter()
        .position(|row| difference.byte < row.end)
        .unwrap_or(script.rows.len() - 1);
    let (number, row) = (first + place as u64, &script.rows[place]);
    let bytes = &script.bytes[row.begin..row.end];
    println!(
        "difference at seed {}, row {number}, one of {}",
        options.seed,
        row.sort.name()
    );
    let before = feeds(&script.bytes[..row.begin]);
    println!(
        "line {} of the row: {}",
        difference.line - before,
        short(&difference.text)
    );
    println!("the program answers:        {}", short(&difference.theirs));
    println!("the second planner answers: {}", short(&difference.ours));
    if let Some(why) = &difference.why {
        println!("both answer alike, and break a rule: {why}");
    }
    let small = match sides.differ(bytes)? {
        Some(_) => smallest::script(sides, bytes)?,
        // Only after other rows.
        None => smallest::script(sides, &script.bytes[..row.end])?,
    };
    let name = format!("difference-{}-{number}.site", options.seed);
    let path = options.into.join(name);
    fs::write(&path, &small)?;
    let lines = feeds(&small);
    println!(
        "the smallest script found, of {lines} lines: {}",
        path.display()
    );
    Ok(())
}

fn feeds(bytes: &[u8]) -> usize {
    bytes.iter().filter(|&&byte| byte == b'\n').count()
}

/// A line, cut where it is very long.
fn short(line: &[u8]) -> String {
    const MOST: usize = 300;
    let text = String::from_utf8_lossy(&line[..line.len().min(MOST)]).into_owned();
    if line.len() > MOST {
        format!("{text}.. ({} bytes)", line.len())
    } else {
        text
    }
}

/// Whether all rows are answered alike.
fn compare(options: &Options, sides: &Sides) -> io::Result<bool> {
    let mut compared = Compared::default();
    let end = options.first.saturating_add(options.rows);
    let mut first = options.first;
    println!("seed {}, rows {first} up to {end}", options.seed);
    while first < end {
        let next = end.min(first + AT_ONCE);
        let script = fresh(options.seed, first..next);
        let (ours, theirs) = (sides.ours(&script.bytes)?, sides.theirs(&script.bytes)?);
        let found = first_difference(&script.bytes, &ours, &theirs)
            .or_else(|| judge(&script.bytes, &theirs, &mut compared.judged));
        if let Some(difference) = found {
            tell(options, sides, first, &script, &difference)?;
            return Ok(false);
        }
        compared.add(script, &ours);
        first = next;
    }
    compared.tell();
    Ok(true)
}

fn main() -> ExitCode {
    let options = match options::read(std::env::args_os().skip(1)) {
        Ok(Asked::Compare(options)) => options,
        Ok(Asked::Help) => {
            print!("{}", options::HELP);
            return ExitCode::SUCCESS;
        }
        Err(wrong) => {
            eprintln!("compare: {wrong}\n{}", options::USAGE);
            return ExitCode::from(2);
        }
    };
    let planner = match &options.planner {
        Some(planner) => planner,
        None => return ExitCode::from(options::NO_PLANNER),
    };
    match compare(&options, &Sides { planner }) {
        Ok(true) => ExitCode::SUCCESS,
        Ok(false) => ExitCode::from(1),
        Err(error) => {
            eprintln!("compare: {}: {error}", planner.display());
            ExitCode::from(2)
        }
    }
}
