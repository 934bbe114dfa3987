//! Many scripts at random, by seed, on as many processors as there are.

use crate::chance::Chance;
use crate::program::{is_feed, Programs};
use crate::{Attacks, Met};
use std::sync::atomic::{AtomicUsize, Ordering};
use std::sync::Mutex;
use std::thread;

/// How many scripts there are of each sort.
const COUNT: usize = 1200;

type Sort<'a> = (&'static str, fn(&mut Chance<'a>) -> Vec<u8>);

fn sorts<'a>() -> [Sort<'a>; 4] {
    [
        ("bytes at random", Chance::bytes),
        ("pieces of lines at random", Chance::pieces),
        ("lines with any numbers", Chance::forms),
        ("lines of a right script, damaged", Chance::damaged),
    ]
}

/// Makes all scripts, and says how many they were.
pub fn make(attacks: &mut Attacks, script: &[u8]) -> Result<usize, String> {
    let lines: Vec<&[u8]> = script.split(is_feed).collect();
    let sorts = sorts();
    for (number, (name, sort)) in sorts.iter().enumerate() {
        attacks.make(&format!("{COUNT} scripts: {name}"), |programs| {
            many(programs, |seed| {
                sort(&mut Chance::new(seed * sorts.len() + number, &lines))
            })
        })?;
    }
    Ok(COUNT * sorts.len())
}

/// Tries the scripts of all seeds; of several that fail, tells one.
fn many(programs: &Programs, script: impl Fn(usize) -> Vec<u8> + Sync) -> Met {
    let (next, failed) = (AtomicUsize::new(0), Mutex::new(None));
    let work = || loop {
        let seed = next.fetch_add(1, Ordering::Relaxed);
        if seed >= COUNT {
            break;
        }
        if let Err(why) = programs.answers(&script(seed)) {
            next.store(COUNT, Ordering::Relaxed);
            if let Ok(mut failed) = failed.lock() {
                *failed = Some(format!("seed {seed}: {why}"));
            }
        }
    };
    let workers = thread::available_parallelism().map_or(1, usize::from);
    thread::scope(|scope| {
        for _ in 0..workers {
            scope.spawn(work);
        }
    });
    match failed.into_inner() {
        Ok(None) => Ok(()),
        Ok(Some(why)) => Err(why),
        Err(_) => Err("a worker stopped".to_string()),
    }
}
