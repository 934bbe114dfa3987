//! The second planner judged by brute force.

use super::grading::GRADINGS;
use super::judge::{Judge, Judged};
use super::paths::Links;
use crate::answers::{answered, answers};
use crate::generator::dice::Dice;
use crate::generator::script::Script;

/// The line of the first answer that breaks a rule, and the rule; or what was judged.
fn judge(script: &[u8], output: &[u8]) -> Result<Judged, (usize, String)> {
    let mut judge = Judge::default();
    for ((number, line), answer) in answered(script).zip(answers(output)) {
        judge.hear(line, answer).map_err(|why| (number, why))?;
    }
    Ok(judge.judged)
}

#[test]
fn rows_at_random_keep_the_rules() {
    let mut script = Script::new(Dice(1));
    for number in 0..1500 {
        script.fresh_small_row(7, number);
    }
    let output = crate::tests::answers(&script.bytes);
    let judged = judge(&script.bytes, output.as_bytes()).expect("all rules are kept");
    for (what, least) in [
        ("books at rest", 2000),
        ("counts of who waits", 2000),
        ("entries by hand", 2000),
        ("grades of paths", 500),
        ("picks by hand", 2000),
        ("picks by hand in their order", 2000),
        ("picks within their bound", 2000),
        ("plans accepted", 500),
        ("plans refused", 1000),
        ("questions", 500),
        ("regrades that take labels", 150),
        ("regrades that take none", 500),
        ("routes", 500),
        ("routes refused", 50),
    ] {
        assert!(judged.get(what) >= Some(&least), "{what}: {judged:?}");
    }
}

const ESTATE: &str = "net 0 2 3 5 5 / 1 2 3 1 3\ngrades 4 1 1 2 5\n";

/// Of the right answers to lines after the estate one is another.
fn wrong(lines: &str, place: usize, answer: &str) {
    let script = format!("{ESTATE}{lines}");
    let output = crate::tests::answers(script.as_bytes());
    assert!(
        judge(script.as_bytes(), output.as_bytes()).is_ok(),
        "{output}"
    );
    let mut told: Vec<&str> = output.lines().collect();
    let line = told.len() - place;
    assert_ne!(told[line], answer);
    told[line] = answer;
    let judged = judge(script.as_bytes(), told.join("\n").as_bytes());
    assert!(judged.is_err(), "{lines}: {answer}");
}

/// The place of the wrong answer is counted from the last line, which is 1.
#[test]
fn wrong_answers_are_seen() {
    let rest = "start 0\nwork 65535\nlabels\nentries\n";
    wrong("path 1 3 2\n", 1, "path 5");
    // Labels and entries at rest.
    wrong(rest, 2, "labels 0 4 1 5");
    wrong(rest, 2, "labels 0 3 1 3");
    wrong(rest, 1, "entries 65534 0 1 2");
    wrong(rest, 1, "entries 65534 3 1 65535");
    // Picks.
    wrong("start 0\nwork 3\n", 1, "work 4 0");
    wrong("start 0\nwork 9\n", 1, "work 6 1");
    wrong("start 0\nwork 65535\n", 1, "work 15 0");
    wrong("start 0\nwork 0\n", 1, "work 0 2");
    // A regrade.
    let regrade = format!("{rest}regrade 3 9\nlabels\nentries\n");
    wrong(&regrade, 3, "regrade 1 2");
    wrong(&regrade, 3, "regrade 2 1");
    wrong(&regrade, 2, "labels 0 0 1 4");
    wrong(&regrade, 1, "entries 65534 65535 1 2");
    wrong(&format!("{rest}regrade 3 1\n"), 1, "regrade 0 0");
    // Questions, routes and the check.
    wrong(&format!("{rest}ask 3\n"), 1, "ask 4 4 0");
    wrong(&format!("{rest}ask 3\n"), 1, "ask 4 2 1");
    wrong(&format!("{rest}ask 3\n"), 1, "ask none 0");
    wrong(&format!("{rest}route 3 9\n"), 1, "route 2: 1 4");
    wrong(
        &format!("{rest}route 3 9\n"),
        1,
        "refused 11 place 0 layer book",
    );
    wrong(
        &format!("{rest}route 3 2\n"),
        1,
        "refused 12 place 2 layer book",
    );
    wrong(
        &format!("{rest}check 0\n"),
        1,
        "refused 17 place 1 layer check",
    );
    wrong(&format!("{rest}check 1\n"), 1, "check ok");
    wrong(&format!("{rest}poke label 3 5\ncheck 0\n"), 1, "check ok");
    wrong(
        &format!("{rest}poke label 3 5\ncheck 0\n"),
        1,
        "refused 17 place 2 layer check",
    );
    // Lists by hand.
    wrong("enter 1\nenter 1\n", 1, "enter new");
    wrong("enter 1\nenter 2\npick\n", 1, "pick 2");
    wrong("enter 1\nenter 2\npick\n", 1, "pick none");
    wrong("enter 1\nwaiting\n", 1, "waiting 2");
    let enter = "poke label 1 5\npoke label 2 4\nenter 1\nenter 2\n";
    wrong(&format!("list small-label\n{enter}pick\n"), 1, "pick 1");
    wrong(&format!("list threshold 0\n{enter}pick\n"), 1, "pick 1");
    wrong(&format!("list bucket 1 9\n{enter}pick\n"), 1, "pick 1");
    wrong(
        "list two-ended\nenter 1\npick\nenter 2\nenter 1\npick\n",
        1,
        "pick 2",
    );
}

#[test]
fn the_simple_paths_of_the_estate() {
    let paths = Links::of(&[0, 2, 3, 5, 5], &[1, 2, 3, 1, 3]).simple_paths();
    let paths = paths.expect("a small net");
    assert_eq!(paths.iter().map(Vec::len).collect::<Vec<_>>(), [6, 1, 3, 0]);
    assert_eq!(paths[2], [vec![3], vec![4], vec![3, 2]]);
    // Nothing is simple that comes back.
    let paths = Links::of(&[0, 2, 3], &[0, 1, 0]).simple_paths();
    assert_eq!(paths, Some(vec![vec![vec![1]], vec![vec![2]]]));
}

#[test]
fn the_kinds_of_grade() {
    let [airtime, chance, margin] = GRADINGS;
    assert_eq!(airtime.over(4_294_967_290, 5), 4_294_967_295);
    assert_eq!(airtime.over(4_294_967_290, 6), 4_294_967_295);
    assert_eq!(
        (chance.over(32_768, 32_768), chance.over(1, 65_535)),
        (16_384, 0)
    );
    assert_eq!((margin.over(-3, 5), margin.over(127, -128)), (-3, -128));
    assert!(airtime.beats(3, 4) && chance.beats(4, 3) && margin.beats(4, -3));
    assert!(!airtime.beats(3, 3) && !chance.beats(3, 4) && !margin.beats(-4, -3));
    assert_eq!((chance.rank(0), margin.rank(-128)), (65_536, 255));
}
