//! Lines about books whose memory is written from outside between the calls, at random.

use super::book_rows::Book;
use super::kind::{Kind, KINDS};
use super::list_rows::LISTS;
use super::rows::Sort;
use super::script::Script;

impl Script {
    /// An entry, mostly a link into its station.
    fn poke_entry(&mut self, book: &Book) {
        let station = if self.dice.percent(20) {
            book.gateway
        } else {
            book.station(&mut self.dice)
        };
        let links = book.links();
        let into = book.net.links_into(station);
        let entry = match self.dice.below(10) {
            0 => 65534,
            1 | 2 => 65535,
            3 => book.link(&mut self.dice),
            4 => self.dice.pick(&[links, 4095, 4096, 65533]),
            _ if into.is_empty() => 65535,
            _ => self.dice.pick(&into),
        };
        self.words(&format!("poke entry {station} {entry}"));
        // Ways that stop where they should not.
        if entry == 65534 {
            self.route(book);
            self.route(book);
        }
    }

    fn poke_label(&mut self, book: &Book) {
        let station = book.station(&mut self.dice);
        let label = match (self.dice.below(4), book.kind) {
            (0, _) => book.kind.bad(&mut self.dice),
            // These read as 65536.
            (1, Kind::Chance) => self.dice.pick(&[65537, 70000, 4294967295]),
            _ => book.kind.close(&mut self.dice),
        };
        self.words(&format!("poke label {station} {label}"));
        if self.dice.percent(30) {
            self.text("labels\n");
        }
    }

    /// Entries along a walk, which may come back to where it was; then one of them is regraded.
    fn poke_walk(&mut self, book: &Book) {
        let most = 2 + self.dice.below(book.net.stations() + 1);
        let walk = book.net.walk(&mut self.dice, most);
        for &link in &walk {
            let head = book.net.heads[link];
            self.words(&format!("poke entry {head} {link}"));
        }
        for _ in 0..self.dice.below(3) {
            self.poke_label(book);
        }
        if self.dice.percent(50) {
            self.route(book);
        }
        if self.dice.percent(70) && !walk.is_empty() {
            let link = self.dice.pick(&walk);
            self.regrade(book, link);
        }
    }

    /// The candidate list by hand.
    fn hand(&mut self, book: &Book) {
        let station = book.station(&mut self.dice);
        match self.dice.below(10) {
            0 => self.text("pick\n"),
            1 => self.text("empty\n"),
            2 => {
                let station = self.dice.pick(&[book.net.stations(), 1023, 1022, 1024]);
                self.words(&format!("enter {station}"));
            }
            3 => {
                let handed = self.dice.below(book.net.stations() + 1);
                self.words(&format!("enter {station} {handed}"));
            }
            _ => self.words(&format!("enter {station}")),
        }
    }

    /// A list cut, or filled up, for some calls; mostly it has its length back after them.
    fn cut(&mut self, book: &mut Book) {
        let (stations, links) = (book.net.stations(), book.links());
        let (part, count) = self.dice.pick(&[
            ("grades", links),
            ("labels", stations),
            ("entries", stations),
        ]);
        let other = match self.dice.below(4) {
            0 => 0,
            1 => count + 1,
            _ => self.dice.below(count),
        };
        self.words(&format!("resize {part} {other}"));
        self.calls_of_each_sort(book);
        if self.dice.percent(95) {
            self.words(&format!("resize {part} {count}"));
        }
    }

    fn intrude(&mut self, book: &mut Book) {
        match self.dice.below(100) {
            0..=29 => self.poke_entry(book),
            30..=47 => self.poke_walk(book),
            48..=59 => self.poke_label(book),
            60..=66 => {
                let link = book.link(&mut self.dice);
                let grade = book.kind.close(&mut self.dice);
                self.words(&format!("poke grade {link} {grade}"));
            }
            67..=84 => self.hand(book),
            85..=87 => {
                let name = self.dice.pick(&LISTS);
                let words = book.list(&mut self.dice, name);
                self.words(&format!("list {words}"));
            }
            88..=90 => {
                let links = book.links();
                self.book_grades(book, links);
            }
            _ => self.cut(book),
        }
    }

    /// Every list over every kind, in memory that may hold anything.
    pub fn intruded_rows(&mut self, rounds: usize, turns: usize) {
        for _ in 0..rounds {
            for kind in KINDS {
                for name in LISTS {
                    self.row(Sort::Intruded, |script| {
                        script.intruded_row(kind, name, turns);
                    });
                }
            }
        }
    }

    pub fn intruded_row(&mut self, kind: Kind, name: &str, turns: usize) {
        let mut book = self.open(kind, name);
        for _ in 0..self.dice.below(3) {
            self.intrude(&mut book);
        }
        self.words(&format!("start {}", book.gateway));
        if self.dice.percent(60) {
            self.text("work 65535\n");
        }
        for _ in 0..turns {
            self.intrude(&mut book);
            for _ in 0..self.dice.below(3) {
                self.call(&mut book);
            }
        }
        self.text("labels\nentries\nwork 65535\nlabels\nentries\n");
        self.again(&mut book);
    }

    /// A start puts all right, but for lists of other lengths.
    fn again(&mut self, book: &mut Book) {
        if self.dice.percent(30) {
            self.words(&format!("start {}", book.gateway));
            self.text("work 65535\nlabels\nentries\n");
        }
        if self.dice.percent(10) {
            let kind = self.dice.pick(&KINDS);
            self.renew(book, kind);
        }
    }

    /// A new book over the same net, not started, with all grades 0.
    fn renew(&mut self, book: &mut Book, kind: Kind) {
        book.kind = kind;
        self.words(&format!("kind {}", kind.name()));
        self.text("labels\nentries\n");
        self.calls_of_each_sort(book);
        self.words(&format!("start {}", book.gateway));
        self.text("work 65535\nlabels\nentries\n");
    }
}
