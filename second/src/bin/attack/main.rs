//! Attacks the program `planner` with bad input: odd bytes, long lines, missing files, closed and full pipes, too little memory, and damaged
//! scripts at random. Where it answers, it must answer as the second planner does; where it does not, it must end with status 1 and say why.

mod arguments;
mod chance;
mod ends;
mod long;
mod memory;
mod program;
mod random;
mod streams;

use program::Programs;
use std::path::{Path, PathBuf};
use std::process::ExitCode;

const USAGE: &str = "usage: attack [-v] PLANNER SCRIPT

Attacks the program PLANNER, and compares its answers with those of the second planner, which stands beside this program.
SCRIPT is a script of right lines, which are damaged at random. -v prints a line for each attack.";

/// What an attack makes of a planner: an error says what is wrong.
pub type Met = Result<(), String>;

/// What all attacks stand on.
pub struct Attacks<'a> {
    programs: &'a Programs,
    is_told: bool,
    met: usize,
}

impl Attacks<'_> {
    /// Makes one attack.
    pub fn make(&mut self, name: &str, attack: impl FnOnce(&Programs) -> Met) -> Met {
        attack(self.programs).map_err(|why| format!("{name}: {why}"))?;
        if self.is_told {
            println!("{name}");
        }
        self.met += 1;
        Ok(())
    }
}

fn attack(planner: &Path, script: &Path, is_told: bool) -> Result<String, String> {
    let lines = std::fs::read(script).map_err(|error| format!("{}: {error}", script.display()))?;
    let programs = Programs::new(planner)?;
    let mut attacks = Attacks {
        programs: &programs,
        is_told,
        met: 0,
    };
    arguments::make(&mut attacks)?;
    ends::make(&mut attacks)?;
    streams::make(&mut attacks)?;
    long::make(&mut attacks)?;
    memory::make(&mut attacks, &lines)?;
    let scripts = random::make(&mut attacks, &lines)?;
    Ok(format!(
        "{} attacks met, and {scripts} scripts at random answered",
        attacks.met
    ))
}

fn main() -> ExitCode {
    let mut words: Vec<PathBuf> = std::env::args_os().skip(1).map(PathBuf::from).collect();
    let is_told = words.first().map_or(false, |word| word.as_os_str() == "-v");
    if is_told {
        words.remove(0);
    }
    let ended = match &words[..] {
        [planner, script] => attack(planner, script, is_told),
        _ => Err(USAGE.to_string()),
    };
    match ended {
        Ok(summary) => {
            println!("{summary}");
            ExitCode::SUCCESS
        }
        Err(why) => {
            eprintln!("attack: {why}");
            ExitCode::FAILURE
        }
    }
}
