//! Rows at random: what sorts there are, and fresh rows by seed and number.

use super::dice::Dice;
use super::kind::{Kind, KINDS};
use super::list_rows::LISTS;
use super::net::Net;
use super::script::Script;
use std::collections::BTreeMap;

/// What a row at random is about. Each row begins with a net of its own.
#[derive(Clone, Copy, Debug, PartialEq, Eq, PartialOrd, Ord)]
pub enum Sort {
    Path,
    List,
    Book,
    Law,
    Intruded,
    Check,
    Even,
    LargePath,
    LargeList,
    LargeBook,
    LargeCheck,
}

impl Sort {
    pub fn name(self) -> &'static str {
        match self {
            Sort::Path => "paths, and nets refused",
            Sort::List => "lists by hand",
            Sort::Book => "books",
            Sort::Law => "books shown at each call",
            Sort::Intruded => "books with intrusions",
            Sort::Check => "checks with damage",
            Sort::Even => "checks where labels tie",
            Sort::LargePath => "paths on large nets",
            Sort::LargeList => "lists of all stations",
            Sort::LargeBook => "large books",
            Sort::LargeCheck => "checks of large plans",
        }
    }
}

/// Where a row stands among the bytes of a script.
pub struct Row {
    pub sort: Sort,
    pub begin: usize,
    pub end: usize,
}

/// How many rows there are of each sort, a line for each, and of all.
pub fn counted(rows: &[Row]) -> String {
    let mut counts = BTreeMap::new();
    for row in rows {
        *counts.entry(row.sort).or_insert(0) += 1;
    }
    let mut text = String::new();
    for (sort, count) in counts {
        text += &format!("{count:9} rows of {}\n", sort.name());
    }
    text + &format!("{:9} rows in all\n", rows.len())
}

/// One row in so many is about a large net.
const LARGE: u64 = 50;

impl Script {
    /// The row of that seed and number, which is the same whatever stands before it.
    pub fn fresh_row(&mut self, seed: u64, number: u64) {
        if number % LARGE == LARGE - 1 {
            self.dice = Dice::of(seed, number);
            self.fresh_large_row(number / LARGE);
        } else {
            self.fresh_small_row(seed, number);
        }
    }

    /// Such a row about a small net, also where there would be a large one.
    pub fn fresh_small_row(&mut self, seed: u64, number: u64) {
        self.dice = Dice::of(seed, number);
        let (kind, list) = (self.dice.pick(&KINDS), self.dice.pick(&LISTS));
        let turns = 1 + self.dice.below(6);
        let calls = self.dice.pick(&[2, 3, 5, 8, 13, 21]);
        match self.dice.below(100) {
            0..=14 => self.row(Sort::Path, |script| {
                script.small_net();
                script.spoiled_nets(turns);
                script.replaced_net(kind, list);
            }),
            15..=24 => {
                let stations = 2 + self.dice.below(8);
                let rounds = [turns, self.dice.below(3)];
                self.row(Sort::List, |script| {
                    script.list_row(kind, list, stations, rounds);
                });
            }
            25..=44 => self.row(Sort::Book, |script| script.book_row(kind, list, calls)),
            45..=59 => self.row(Sort::Law, |script| script.law_row(kind, list, calls)),
            60..=79 => self.row(Sort::Intruded, |script| {
                script.intruded_row(kind, list, turns);
            }),
            80..=94 => self.row(Sort::Check, |script| script.check_row(kind, list, turns)),
            _ => self.row(Sort::Even, |script| script.even_row(kind, calls)),
        }
    }

    /// Each sort in its turn.
    fn fresh_large_row(&mut self, turn: u64) {
        let (kind, list) = (self.dice.pick(&KINDS), self.dice.pick(&LISTS));
        match turn % 4 {
            0 => self.row(Sort::LargePath, |script| {
                let net = Net::large(&mut script.dice);
                script.large_net(kind, net);
                script.too_large();
            }),
            1 => self.row(Sort::LargeList, |script| {
                script.full_net(kind);
                let words = full_list_words(kind, list);
                script.full_list(kind, &words);
                script.all_wait();
            }),
            2 => self.row(Sort::LargeBook, |script| {
                let net = Net::large(&mut script.dice);
                script.large_book(kind, net, &[list]);
            }),
            _ => self.row(Sort::LargeCheck, |script| {
                let net = Net::large(&mut script.dice);
                // The only lists that take no more words.
                let list = script.dice.pick(&LISTS[..3]);
                script.large_check(kind, list, net);
            }),
        }
    }
}

/// The words after `list`, fit for labels of 5,000 ranks, or of all where there are fewer.
fn full_list_words(kind: Kind, list: &str) -> String {
    match (list, kind) {
        ("threshold", Kind::Airtime) => "threshold 500".to_string(),
        ("threshold", Kind::Chance) => "threshold 65000".to_string(),
        ("threshold", Kind::Margin) => "threshold 90".to_string(),
        ("bucket", Kind::Margin) => "bucket 9 255".to_string(),
        ("bucket", _) => "bucket 100 4999".to_string(),
        _ => list.to_string(),
    }
}
