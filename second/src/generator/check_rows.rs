//! Lines about the check, at random: plans at rest, on the way there, and damaged.

use super::book_rows::Book;
use super::kind::{Kind, KINDS};
use super::list_rows::LISTS;
use super::net::Net;
use super::plan::{Planned, OWN, UNLABELLED};
use super::rows::Sort;
use super::script::Script;

impl Script {
    pub fn check(&mut self, gateway: usize) {
        self.words(&format!("check {gateway}"));
    }

    /// Net, kind, list and grades.
    fn open_planned(&mut self, planned: &Planned, list: &str) {
        let book = &planned.book;
        self.line(&book.net.words());
        self.words(&format!("kind {}", book.kind.name()));
        let list = book.list(&mut self.dice, list);
        self.words(&format!("list {list}"));
        if self.dice.percent(25) {
            // No label, no entry, and the grades are mostly others yet.
            self.check(book.gateway);
        }
        self.grade_line(&planned.grades);
    }

    /// From the start to rest, mostly with a look on the way.
    fn plan_again(&mut self, planned: &Planned) {
        let gateway = planned.book.gateway;
        self.words(&format!("start {gateway}"));
        while self.dice.percent(20) {
            let allowed = self.dice.below(4);
            self.words(&format!("work {allowed}"));
            self.check(gateway);
        }
        self.text("work 65535\n");
        // So that all that is checked can be judged by what was shown.
        if self.dice.percent(70) {
            self.text("labels\nentries\n");
        }
    }

    /// The same plan written by hand, for a book that may be started elsewhere or not at all.
    fn write_plan(&mut self, planned: &Planned) {
        for station in 0..planned.book.net.stations() {
            let entry = planned.plan.entries[station];
            if planned.plan.reaches(station) {
                self.write_label(station, planned.plan.labels[station]);
            }
            self.write_entry(station, entry);
            if self.dice.percent(10) {
                self.check(planned.book.gateway);
            }
        }
    }

    /// Another station is checked as the gateway, though it is none, or half one.
    fn check_elsewhere(&mut self, planned: &Planned) {
        let book = &planned.book;
        let other = book.station(&mut self.dice);
        self.check(other);
        if self.dice.percent(50) {
            self.write_entry(other, OWN);
            self.check(other);
        }
        if self.dice.percent(50) {
            self.write_label(other, book.kind.ranked(0));
            self.check(other);
        }
        self.check(book.gateway);
    }

    /// A station that there is not, or lists of another length.
    fn check_out_of_size(&mut self, planned: &Planned) {
        let (stations, links) = (planned.book.net.stations(), planned.book.links());
        let beyond = self.dice.pick(&[stations, stations + 1, 1024, 65535]);
        if self.dice.percent(30) {
            self.check(beyond);
            return;
        }
        let (part, count) = self.dice.pick(&[
            ("grades", links),
            ("labels", stations),
            ("entries", stations),
        ]);
        let other = match self.dice.below(3) {
            0 => count + 1 + self.dice.below(2),
            _ => self.dice.below(count),
        };
        self.words(&format!("resize {part} {other}"));
        self.check(planned.book.gateway);
        if self.dice.percent(30) {
            self.check(beyond);
        }
        self.words(&format!("resize {part} {count}"));
        self.check(planned.book.gateway);
    }

    /// From rest to rest, with a look at each step.
    fn regrade_and_check(&mut self, planned: &mut Planned) {
        let gateway = planned.book.gateway;
        if planned.book.links() > 0 {
            let link = planned.book.link(&mut self.dice);
            let grade = if self.dice.percent(40) {
                planned.book.kind.bad(&mut self.dice)
            } else {
                planned.book.kind.close(&mut self.dice)
            };
            self.words(&format!("regrade {link} {grade}"));
            // A chance that is too large is refused.
            if !matches!(planned.book.kind, Kind::Chance) || grade <= 65536 {
                planned.regrade(link, grade);
            }
            self.check(gateway);
            let allowed = 1 + self.dice.below(3);
            self.words(&format!("work {allowed}"));
            self.check(gateway);
            self.text("work 65535\n");
            self.check(gateway);
        }
    }

    /// Every list over every kind.
    pub fn check_rows(&mut self, rounds: usize, turns: usize) {
        for _ in 0..rounds {
            for kind in KINDS {
                for list in LISTS {
                    self.row(Sort::Check, |script| script.check_row(kind, list, turns));
                }
            }
        }
    }

    pub fn check_row(&mut self, kind: Kind, list: &str, turns: usize) {
        let mut planned = Planned::small(&mut self.dice, kind);
        self.open_planned(&planned, list);
        if self.dice.percent(15) {
            self.write_plan(&planned);
            self.check(planned.book.gateway);
        }
        for turn in 0..turns {
            self.plan_again(&planned);
            if turn == 0 || self.dice.percent(30) {
                self.check(planned.book.gateway);
            }
            match self.dice.below(100) {
                0..=9 => self.check_elsewhere(&planned),
                10..=18 => self.check_out_of_size(&planned),
                19..=32 => self.regrade_and_check(&mut planned),
                33 => {
                    self.damaged(&["check 0", "check 12"]);
                    self.text("\n");
                }
                _ => self.damage_and_check(&planned),
            }
        }
    }

    /// Nets over which a label stays what it is, so that entries may go round, or lead from the
    /// gateway in many ways.
    pub fn even_checks(&mut self, rounds: usize, turns: usize) {
        for _ in 0..rounds {
            for kind in KINDS {
                self.row(Sort::Even, |script| script.even_row(kind, turns));
            }
        }
    }

    pub fn even_row(&mut self, kind: Kind, turns: usize) {
        let (planned, label) = self.even(kind);
        self.open_planned(&planned, "first-in");
        self.plan_again(&planned);
        self.check(planned.book.gateway);
        for turn in 0..turns {
            let station = planned.book.station(&mut self.dice);
            let into = planned.book.net.links_into(station);
            if station == planned.book.gateway {
                continue;
            }
            match self.dice.below(20) {
                0 => {
                    let label = planned.other_label(&mut self.dice, label);
                    self.write_label(station, label);
                }
                1 => self.damage_entry(&planned, station),
                2 => self.write_entry(station, UNLABELLED),
                _ if into.is_empty() => continue,
                _ => {
                    let link = self.dice.pick(&into);
                    self.write_label(station, label);
                    self.write_entry(station, link);
                }
            }
            self.check(planned.book.gateway);
            if turn % 8 == 7 {
                self.plan_again(&planned);
            }
        }
    }

    /// All links from the gateway bring one label, and all others leave it as it is.
    fn even(&mut self, kind: Kind) -> (Planned, i64) {
        let stations = 3 + self.dice.below(7);
        let more = stations / 2 + self.dice.below(stations);
        let (net, gateway) = Net::grown(&mut self.dice, stations, more);
        let label = match kind {
            Kind::Airtime => self.dice.pick(&[0, 7, 4294967295]),
            Kind::Chance => self.dice.pick(&[65536, 40000, 1, 0]),
            Kind::Margin => self.dice.pick(&[127, 5, -128]),
        };
        let mut grades = Vec::new();
        for link in 0..net.links() {
            grades.push(match (kind, label) {
                _ if net.tail(link) == gateway => label,
                (Kind::Airtime, 4294967295) | (Kind::Chance, 0) => kind.grade(&mut self.dice),
                (Kind::Airtime, _) => 0,
                (Kind::Chance, _) => 65536,
                (Kind::Margin, _) => label.max(kind.grade(&mut self.dice)),
            });
        }
        (Planned::new(Book { net, kind, gateway }, grades), label)
    }
}
