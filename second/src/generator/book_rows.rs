//! Lines about the book and its calls, at random.

use super::dice::Dice;
use super::kind::{Kind, KINDS};
use super::list_rows::LISTS;
use super::net::Net;
use super::rows::Sort;
use super::script::Script;

/// What the generator knows of a book that is open.
pub struct Book {
    pub net: Net,
    pub kind: Kind,
    pub gateway: usize,
}

impl Book {
    /// Few stations; mostly all can be reached from the gateway, by ways of some links.
    fn small(dice: &mut Dice, kind: Kind) -> Book {
        let stations = dice.pick(&[1, 2, 3, 4, 5, 5, 6, 6, 7, 7, 8, 8]);
        let more = dice.below(stations + 4);
        let (net, gateway) = match dice.below(20) {
            0 => (Net::random(dice, stations, 0), 0),
            1..=3 => {
                let net = Net::random(dice, stations, stations + more);
                (net, dice.below(stations))
            }
            _ => Net::grown(dice, stations, more),
        };
        Book { net, kind, gateway }
    }

    pub fn links(&self) -> usize {
        self.net.links()
    }

    pub fn station(&self, dice: &mut Dice) -> usize {
        dice.below(self.net.stations())
    }

    pub fn link(&self, dice: &mut Dice) -> usize {
        dice.below(self.links())
    }

    /// The words after `list`, fit for the labels of such nets.
    pub fn list(&self, dice: &mut Dice, name: &str) -> String {
        match name {
            "threshold" => {
                let step: i64 = match self.kind {
                    Kind::Airtime => dice.pick(&[0, 1, 2, 3, 5, 12, 4294967295]),
                    Kind::Chance => dice.pick(&[65536, 65535, 61440, 50000, 32768, 1, 0]),
                    Kind::Margin => dice.pick(&[127, 8, 3, 0, -2, -128]),
                };
                format!("threshold {step}")
            }
            "bucket" => {
                let (width, span) = match self.kind {
                    Kind::Airtime => dice.pick(&[(1, 0), (1, 9), (2, 5), (3, 40), (1, 63)]),
                    Kind::Chance => dice.pick(&[(1024, 64511), (4096, 65536), (5000, 20000)]),
                    Kind::Margin => dice.pick(&[(4, 255), (1, 15), (10, 255), (3, 9)]),
                };
                format!("bucket {width} {span}")
            }
            _ => name.to_string(),
        }
    }
}

impl Script {
    /// So many grades, which are one per link or not.
    pub fn book_grades(&mut self, book: &Book, count: usize) {
        let mut words = vec!["grades".to_string()];
        for _ in 0..count {
            words.push(book.kind.close(&mut self.dice).to_string());
        }
        self.line(&words);
    }

    fn work(&mut self, book: &Book) {
        let stations = book.net.stations();
        let allowed = self
            .dice
            .pick(&[0, 1, 1, 1, 2, 2, 3, 5, stations, 65535, 65535]);
        self.words(&format!("work {allowed}"));
        self.show();
    }

    pub fn regrade(&mut self, book: &Book, link: usize) {
        let grade = match self.dice.below(10) {
            0 => book.kind.grade(&mut self.dice),
            1..=4 => book.kind.bad(&mut self.dice),
            _ => book.kind.close(&mut self.dice),
        };
        self.words(&format!("regrade {link} {grade}"));
        self.show();
    }

    fn ask(&mut self, book: &Book) {
        let station = book.station(&mut self.dice);
        self.words(&format!("ask {station}"));
    }

    pub fn route(&mut self, book: &Book) {
        let station = book.station(&mut self.dice);
        let places = self.dice.pick(&[0, 1, 1, 2, 3, 8, 8, 1024, 65535]);
        self.words(&format!("route {station} {places}"));
    }

    fn start(&mut self, book: &mut Book) {
        if self.dice.percent(30) {
            book.gateway = book.station(&mut self.dice);
        }
        self.words(&format!("start {}", book.gateway));
        self.show();
        for _ in 0..self.dice.below(3) {
            self.work(book);
        }
    }

    /// What a call may have changed.
    fn show(&mut self) {
        if self.dice.percent(45) {
            self.text("labels\n");
        }
        if self.dice.percent(45) {
            self.text("entries\n");
        }
        if self.dice.percent(8) {
            self.text("waiting\n");
        }
    }

    /// One of the five calls, mostly one that is accepted.
    pub fn call(&mut self, book: &mut Book) {
        match self.dice.below(100) {
            0..=28 => self.work(book),
            29..=58 => {
                let link = book.link(&mut self.dice);
                self.regrade(book, link);
            }
            59..=71 => self.ask(book),
            72..=86 => self.route(book),
            87..=89 => self.start(book),
            _ => self.refused_call(book),
        }
    }

    /// A station, a link or a grade that does not exist.
    pub fn refused_call(&mut self, book: &Book) {
        let (stations, links) = (book.net.stations(), book.links());
        let station = self.dice.pick(&[stations, stations + 1, 1024, 65535]);
        let link = self.dice.pick(&[links, links, links + 1, 4096, 65535]);
        let line = match self.dice.below(12) {
            0 | 1 => format!("start {station}"),
            2 | 3 => format!("ask {station}"),
            4 | 5 => format!("route {station} 9"),
            6..=8 => format!("regrade {link} {}", book.kind.close(&mut self.dice)),
            _ => {
                let link = self.dice.below(links + 2);
                let grade = self.dice.pick(&["65537", "70000", "4294967295", "65536"]);
                format!("regrade {link} {grade}")
            }
        };
        self.words(&line);
    }

    /// Lists that are too long for some calls, and cut back to what they were.
    fn other_lengths(&mut self, book: &mut Book) {
        let (stations, links) = (book.net.stations(), book.links());
        let (part, count) = self.dice.pick(&[
            ("grades", links),
            ("labels", stations),
            ("entries", stations),
        ]);
        let more = count + 1 + self.dice.below(3);
        self.words(&format!("resize {part} {more}"));
        self.calls_of_each_sort(book);
        self.words(&format!("resize {part} {count}"));
    }

    pub fn calls_of_each_sort(&mut self, book: &mut Book) {
        for _ in 0..1 + self.dice.below(4) {
            match self.dice.below(5) {
                0 => self.words(&format!("start {}", book.gateway)),
                1 => self.work(book),
                2 => {
                    let link = book.link(&mut self.dice);
                    self.regrade(book, link);
                }
                3 => self.ask(book),
                _ => self.route(book),
            }
            if self.dice.percent(25) {
                self.refused_call(book);
            }
        }
    }

    /// A book that is not started yet.
    pub fn open(&mut self, kind: Kind, name: &str) -> Book {
        let mut book = Book::small(&mut self.dice, kind);
        self.line(&book.net.words());
        self.words(&format!("kind {}", kind.name()));
        let list = book.list(&mut self.dice, name);
        self.words(&format!("list {list}"));
        let links = book.links();
        if self.dice.percent(10) {
            let count = self.dice.pick(&[links + 1, links / 2, links + 40]);
            self.book_grades(&book, count);
            self.calls_of_each_sort(&mut book);
        }
        self.book_grades(&book, links);
        if self.dice.percent(25) {
            self.calls_of_each_sort(&mut book);
        }
        book
    }

    /// A line that is none of these, or one byte of such a line made another.
    fn book_garbage(&mut self) {
        let lines = [
            "start 0",
            "work 3",
            "regrade 0 1",
            "ask 0",
            "route 0 9",
            "labels",
            "entries",
        ];
        self.damaged(&lines);
        self.text("\n");
    }

    /// Every list over every kind, in memory that only calls write.
    pub fn book_rows(&mut self, rounds: usize, calls: usize) {
        for _ in 0..rounds {
            for kind in KINDS {
                for name in LISTS {
                    self.row(Sort::Book, |script| script.book_row(kind, name, calls));
                }
            }
        }
    }

    pub fn book_row(&mut self, kind: Kind, name: &str, calls: usize) {
        let mut book = self.open(kind, name);
        self.words(&format!("start {}", book.gateway));
        self.work(&book);
        for _ in 0..calls {
            match self.dice.below(100) {
                0..=3 => self.other_lengths(&mut book),
                4 => self.book_garbage(),
                _ => self.call(&mut book),
            }
        }
        // At rest, and what was found.
        self.text("work 65535\nlabels\nentries\n");
    }
}
