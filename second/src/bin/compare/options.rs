//! The words of the command.

use std::ffi::OsString;
use std::path::PathBuf;

pub const USAGE: &str =
    "usage: compare.sh [--seed N] [--rows N] [--first N] [--planner PROGRAM] [--into FOLDER]";

pub const HELP: &str = "\
Compares the proved program with the second planner on fresh rows at random.
usage: compare.sh [--seed N] [--rows N] [--first N] [--planner PROGRAM] [--into FOLDER]
  --seed N           the seed, 1 if none is given; a row of a seed is always the same script
  --rows N           how many rows, 1000 if not given
  --first N          the number of the first row, 0 if not given
  --planner PROGRAM  the program to compare; if not given, the planner is proved and built first
  --into FOLDER      where the script of a difference is written, second/target if not given
A row is a script of its own that begins with a net: paths and refused nets, candidate lists by
hand, books, books with intrusions, checks of damaged plans, and in one row of 50 a large net of
up to 1,024 stations and 4,096 links. All answers are compared byte by byte. At the first
difference the seed, the row, the line and both answers are told, and the smallest script that was
found to show a difference is written to a file.
Status: 0 no difference, 1 a difference, 2 wrong use, or a program that cannot be run.
";

/// The status where the words are in order and only the program is not named.
pub const NO_PLANNER: u8 = 3;

#[derive(Debug, PartialEq)]
pub struct Options {
    pub seed: u64,
    pub rows: u64,
    pub first: u64,
    pub planner: Option<PathBuf>,
    pub into: PathBuf,
}

#[derive(Debug, PartialEq)]
pub enum Asked {
    Compare(Options),
    Help,
}

/// Of an option that is given twice the last one counts.
pub fn read(words: impl Iterator<Item = OsString>) -> Result<Asked, String> {
    let mut words = words;
    let mut options = Options {
        seed: 1,
        rows: 1000,
        first: 0,
        planner: None,
        into: PathBuf::from("."),
    };
    while let Some(word) = words.next() {
        let name = word.to_string_lossy().into_owned();
        if name == "--help" {
            return Ok(Asked::Help);
        }
        if !["--seed", "--rows", "--first", "--planner", "--into"].contains(&name.as_str()) {
            return Err(format!("there is no {name}"));
        }
        let value = words
            .next()
            .ok_or(format!("{name} wants a word after it"))?;
        match name.as_str() {
            "--seed" => options.seed = number(&name, value)?,
            "--rows" => options.rows = number(&name, value)?,
            "--first" => options.first = number(&name, value)?,
            "--planner" => options.planner = Some(PathBuf::from(value)),
            _ => options.into = PathBuf::from(value),
        }
    }
    Ok(Asked::Compare(options))
}

fn number(name: &str, value: OsString) -> Result<u64, String> {
    let text = value.to_string_lossy().into_owned();
    let digits = !text.is_empty() && text.bytes().all(|byte| byte.is_ascii_digit());
    match text.parse() {
        Ok(number) if digits => Ok(number),
        _ => Err(format!(
            "{name} takes a number from 0 to {}, not {text}",
            u64::MAX
        )),
    }
}

#[cfg(test)]
mod tests {
    use super::*;

    fn read(words: &str) -> Result<Asked, String> {
        super::read(
            words
                .split(' ')
                .filter(|word| !word.is_empty())
                .map(OsString::from),
        )
    }

    #[test]
    fn what_is_not_given_has_a_default() {
        let planner = Some(PathBuf::from("p"));
        let into = PathBuf::from(".");
        let options = Options {
            seed: 1,
            rows: 1000,
            first: 0,
            planner,
            into,
        };
        assert_eq!(read("--planner p"), Ok(Asked::Compare(options)));
    }

    #[test]
    fn the_last_of_the_same_counts() {
        let options =
            match read("--seed 7 --into a --rows 8 --seed 18446744073709551615 --first 9 --into b")
            {
                Ok(Asked::Compare(options)) => options,
                other => panic!("{other:?}"),
            };
        assert_eq!(
            (options.seed, options.rows, options.first),
            (u64::MAX, 8, 9)
        );
        assert_eq!((options.planner, options.into), (None, PathBuf::from("b")));
    }

    #[test]
    fn wrong_words() {
        for words in [
            "seed",
            "--seed",
            "--seed x",
            "--seed -1",
            "--seed +1",
            "--rows 18446744073709551616",
            "--planner",
            "7",
            "--seed=1",
        ] {
            assert!(read(words).is_err(), "{words}");
        }
        assert_eq!(read("--rows 1 --help"), Ok(Asked::Help));
    }
}
