//! Lines about very small books in memory that only calls write. After each call stands what it
//! may have changed, so that the law of runs can be judged by the answers alone.

use super::book_rows::Book;
use super::dice::Dice;
use super::kind::Kind;
use super::net::Net;
use super::script::Script;

/// So few stations and links that all simple paths can be gone through.
fn book(dice: &mut Dice, kind: Kind) -> Book {
    let stations = dice.pick(&[1, 2, 3, 3, 4, 4, 5, 5, 6]);
    let more = dice.below(5);
    let (net, gateway) = if dice.percent(20) {
        (Net::random(dice, stations, more + 3), dice.below(stations))
    } else {
        Net::grown(dice, stations, more)
    };
    Book { net, kind, gateway }
}

impl Script {
    fn shown(&mut self, line: &str) {
        self.words(line);
        self.text("labels\nentries\n");
    }

    pub fn law_row(&mut self, kind: Kind, name: &str, calls: usize) {
        let mut book = book(&mut self.dice, kind);
        self.line(&book.net.words());
        self.words(&format!("kind {}", kind.name()));
        let list = book.list(&mut self.dice, name);
        self.words(&format!("list {list}"));
        let links = book.links();
        self.book_grades(&book, links);
        self.shown(&format!("start {}", book.gateway));
        for _ in 0..calls {
            self.law_call(&mut book);
        }
        self.shown("work 65535");
        for station in 0..book.net.stations() {
            self.words(&format!("check {station}"));
            self.words(&format!("ask {station}"));
            self.words(&format!("route {station} 65535"));
        }
    }

    fn law_call(&mut self, book: &mut Book) {
        match self.dice.below(100) {
            0..=44 => {
                let allowed = self.dice.pick(&[0, 1, 1, 2, 3, 65535, 65535]);
                self.shown(&format!("work {allowed}"));
            }
            45..=84 if book.links() > 0 => {
                let link = book.link(&mut self.dice);
                let grade = if self.dice.percent(40) {
                    book.kind.bad(&mut self.dice)
                } else {
                    book.kind.close(&mut self.dice)
                };
                self.shown(&format!("regrade {link} {grade}"));
            }
            85..=88 => {
                book.gateway = book.station(&mut self.dice);
                self.shown(&format!("start {}", book.gateway));
            }
            89..=93 => self.check(book.gateway),
            _ => self.refused_call(book),
        }
    }
}
