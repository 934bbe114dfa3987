//! Lines about candidate lists, at random.

use super::dice::Dice;
use super::kind::{Kind, KINDS};
use super::net::Net;
use super::rows::Sort;
use super::script::Script;

pub const LISTS: [&str; 5] = [
    "first-in",
    "two-ended",
    "small-label",
    "threshold",
    "bucket",
];

/// What the generator knows of a site whose list is at work.
struct Desk {
    stations: usize,
    kind: Kind,
    /// Most labels rank between `rank` and `rank + spread`, and `rank` rises.
    rank: usize,
    spread: usize,
}

impl Desk {
    fn new(dice: &mut Dice, stations: usize, kind: Kind) -> Desk {
        Desk {
            stations,
            kind,
            rank: 0,
            spread: dice.pick(&[3, 8, 30, 200, 5000]),
        }
    }

    fn label(&mut self, dice: &mut Dice) -> i64 {
        if dice.percent(5) {
            return self.kind.grade(dice);
        }
        if dice.percent(5) {
            return self.kind.ranked(dice.below(self.kind.top_rank() + 1));
        }
        // As good as can be, for a station that may wait with a worse one.
        if dice.percent(8) {
            return self.kind.ranked(dice.below(3));
        }
        self.rank += dice.below(self.spread / 4 + 2);
        if self.rank > self.kind.top_rank() {
            self.rank = 0;
        }
        self.kind.ranked(self.rank + dice.below(self.spread))
    }

    /// A step that parts labels as close as these, or one at the bounds.
    fn step(&self, dice: &mut Dice) -> i64 {
        let near = dice.below(self.spread + 1);
        match (self.kind, dice.below(10)) {
            (Kind::Airtime, 0) => 4294967295,
            (Kind::Airtime, 1) => 0,
            (Kind::Chance, 0) => dice.pick(&[0, 1, 32768]),
            (Kind::Chance, 1) => dice.pick(&[65536, 65537, 4294967295]),
            (Kind::Margin, 0) => dice.pick(&[127, -128]),
            (Kind::Margin, _) => self.kind.ranked(dice.below(256)),
            (Kind::Airtime | Kind::Chance, _) => self.kind.ranked(near),
        }
    }

    /// Mostly few buckets for labels as close as these, at times many or too many.
    fn buckets(&self, dice: &mut Dice) -> (usize, usize) {
        let width = 1 + dice.below(self.spread / 2);
        let most = dice.pick(&[4, 8, 64]);
        let count = 1 + dice.below(most);
        match dice.below(14) {
            0 => dice.pick(&[
                (4294967295, 4294967295),
                (4294967295, 0),
                (4294967295, 4294967294),
                (67108864, 4294967295),
            ]),
            1 => dice.pick(&[(1, 63), (2, 127), (1, 0), (1024, 65536)]),
            2 => dice.pick(&[(0, 0), (0, 77), (1, 64), (2, 128), (67108863, 4294967295)]),
            3 => (width, 63 * width + dice.below(2 * width)),
            _ => (width, (count - 1) * width + dice.below(width)),
        }
    }

    /// The words after `list`.
    fn list(&self, dice: &mut Dice, name: &str) -> String {
        match name {
            "threshold" => format!("threshold {}", self.step(dice)),
            "bucket" => {
                let (width, span) = self.buckets(dice);
                format!("bucket {width} {span}")
            }
            _ => name.to_string(),
        }
    }

    /// A station of the net, seldom one beyond it, more seldom one beyond every list.
    fn station(&self, dice: &mut Dice) -> usize {
        match dice.below(100) {
            0 => dice.pick(&[1024, 1025, 2048, 65535]),
            1 | 2 => dice.pick(&[1023, 1022, 512]),
            3..=6 => (self.stations + dice.below(3)).min(1023),
            _ => dice.below(self.stations),
        }
    }

    /// On a third of the lines, how many labels are handed over.
    fn handed(&self, dice: &mut Dice) -> String {
        if dice.percent(67) {
            return String::new();
        }
        let all = self.stations;
        let count = match dice.below(6) {
            0 => 0,
            1 => all,
            2 => dice.pick(&[all + 1, 1024, 65535]),
            _ => dice.below(all),
        };
        format!(" {count}")
    }
}

impl Script {
    /// A net without links.
    pub fn bare_net(&mut self, stations: usize) {
        self.even_net(&[(stations + 1, 0)], &[]);
    }

    fn enter(&mut self, desk: &Desk) {
        let station = desk.station(&mut self.dice);
        let handed = desk.handed(&mut self.dice);
        self.words(&format!("enter {station}{handed}"));
    }

    fn pick(&mut self, desk: &Desk) {
        let handed = desk.handed(&mut self.dice);
        self.words(&format!("pick{handed}"));
    }

    fn poke(&mut self, desk: &mut Desk) {
        let index = if self.dice.percent(2) {
            desk.stations
        } else {
            self.dice.below(desk.stations)
        };
        let label = desk.label(&mut self.dice);
        self.words(&format!("poke label {index} {label}"));
    }

    fn choose_list(&mut self, desk: &Desk, name: &str) {
        let words = desk.list(&mut self.dice, name);
        self.words(&format!("list {words}"));
    }

    /// A line that changes nothing, or one byte of a good line made another.
    fn list_garbage(&mut self) {
        if self.dice.percent(60) {
            let line = self.dice.pick(&[
                "enter",
                "enter x",
                "enter 1 2 3",
                "enter 65536",
                "pick -1",
                "pick 0 0",
                "empty 1",
                "waiting 1",
                "list",
                "list bucket 1",
                "list threshold",
                "list first-in 1",
                "list threshold 4294967296",
                "poke label 1",
                "poke label 1 4294967296",
                "poke label 65535 0",
                "kind hops",
                "net 0 1 /",
                "path",
            ]);
            self.text(line);
        } else {
            let lines = ["enter 0", "pick 1", "empty", "waiting", "poke label 0 0"];
            self.damaged(&lines);
        }
        self.text("\n");
    }

    /// Lines over one list, in turns of more entries and of more picks.
    fn rounds(&mut self, desk: &mut Desk, name: &str, turns: usize) {
        self.choose_list(desk, name);
        for turn in 0..turns {
            let (enters, picks) = if turn % 2 == 0 { (55, 10) } else { (10, 60) };
            for _ in 0..3 + self.dice.below(desk.stations.min(20) + 3) {
                match self.dice.below(100) {
                    part if part < enters => self.enter(desk),
                    part if part < enters + picks => self.pick(desk),
                    part if part < enters + picks + 22 => self.poke(desk),
                    part if part < enters + picks + 25 => self.text("waiting\n"),
                    part if part < enters + picks + 27 => self.list_garbage(),
                    part if part < enters + picks + 29 => {
                        self.text("empty\n");
                        desk.rank = 0;
                    }
                    _ if self.dice.percent(5) => {
                        let other = self.dice.pick(&LISTS);
                        self.choose_list(desk, other);
                        self.enter(desk);
                        self.choose_list(desk, name);
                    }
                    _ => self.enter(desk),
                }
            }
        }
        self.emptied(desk);
    }

    /// What a list remembers when it is emptied, or runs empty by picks, and what it forgets.
    fn emptied(&mut self, desk: &Desk) {
        for _ in 0..2 {
            for _ in 0..4 {
                self.enter(desk);
            }
            for _ in 0..3 {
                self.pick(desk);
            }
            if self.dice.percent(70) {
                self.text("empty\n");
            }
        }
        for _ in 0..4 {
            self.enter(desk);
        }
        for _ in 0..5 {
            self.pick(desk);
        }
    }

    /// Every list over every kind, on nets of few stations, and on some of many.
    pub fn list_rows(&mut self, rounds: usize) {
        for round in 0..rounds {
            for kind in KINDS {
                for name in LISTS {
                    let stations = if round == 0 && self.dice.percent(40) {
                        self.dice.pick(&[40, 100, 300])
                    } else {
                        3 + self.dice.below(10)
                    };
                    self.row(Sort::List, |script| {
                        script.list_row(kind, name, stations, [12, 8]);
                    });
                }
            }
        }
    }

    /// So many rounds with one list, with another that goes by labels, and with a new one.
    pub fn list_row(&mut self, kind: Kind, name: &str, stations: usize, rounds: [usize; 2]) {
        if self.dice.percent(80) {
            self.bare_net(stations);
        } else {
            let net = Net::random(&mut self.dice, stations, 5);
            self.line(&net.words());
        }
        self.words(&format!("kind {}", kind.name()));
        let mut desk = Desk::new(&mut self.dice, stations, kind);
        for _ in 0..stations {
            self.poke(&mut desk);
        }
        self.rounds(&mut desk, name, rounds[0]);
        let other = self.dice.pick(&["threshold", "threshold", "bucket"]);
        self.rounds(&mut desk, other, rounds[1]);
        // The list that a new kind begins with.
        self.words(&format!("kind {}", kind.name()));
        for _ in 0..5 {
            self.enter(&desk);
            self.enter(&desk);
            self.pick(&desk);
        }
    }
}
