//! Plans damaged at random, where the generator knows what stood there.

use super::plan::{Plan, Planned, OWN, UNLABELLED};
use super::script::Script;

impl Script {
    pub fn write_label(&mut self, station: usize, label: i64) {
        self.words(&format!("poke label {station} {label}"));
    }

    pub fn write_entry(&mut self, station: usize, entry: usize) {
        self.words(&format!("poke entry {station} {entry}"));
    }

    pub fn write_grade(&mut self, link: usize, grade: i64) {
        self.words(&format!("poke grade {link} {grade}"));
    }

    /// An entry, mostly a link into its station.
    pub fn damage_entry(&mut self, planned: &Planned, station: usize) {
        let into = planned.book.net.links_into(station);
        let links = planned.book.links();
        let entry = match self.dice.below(12) {
            0 | 1 => OWN,
            2 | 3 => UNLABELLED,
            4 => self.dice.pick(&[links, links + 1, 4095, 4096, 65533]),
            5 | 6 => self.dice.below(links),
            _ if into.is_empty() => self.dice.below(links),
            _ => self.dice.pick(&into),
        };
        self.write_entry(station, entry);
    }

    /// Another link into the station, and the label that it brings.
    fn enter_otherwise(&mut self, planned: &Planned, station: usize) {
        let into = planned.book.net.links_into(station);
        if !into.is_empty() {
            let link = self.dice.pick(&into);
            self.write_entry(station, link);
            self.write_label(station, planned.carried(link));
        }
    }

    /// Entries along a walk, which may come back to where it was, and mostly labels along it.
    fn enter_along(&mut self, planned: &Planned) {
        let net = &planned.book.net;
        let most = 1 + self.dice.below(net.stations().min(4));
        let walk = net.walk(&mut self.dice, most);
        let mut label = match walk.first() {
            Some(&first) => planned.plan.labels[net.tail(first)],
            None => return,
        };
        let carries = self.dice.percent(60);
        for link in walk {
            let station = net.heads[link];
            if station == planned.book.gateway && self.dice.percent(95) {
                return;
            }
            self.write_entry(station, link);
            label = planned.book.kind.carry(label, planned.grades[link]);
            if carries {
                self.write_label(station, label);
            }
        }
    }

    /// Another plan, from where that at rest stands.
    pub fn write_other(&mut self, planned: &Planned, other: &Plan) {
        for station in 0..planned.book.net.stations() {
            let (label, entry) = (other.labels[station], other.entries[station]);
            if other.reaches(station) && label != planned.plan.labels[station] {
                self.write_label(station, label);
            }
            if entry != planned.plan.entries[station] {
                self.write_entry(station, entry);
            }
        }
    }

    /// The best plan without some links of ways. Nothing is wrong with it but that these links
    /// bring more.
    fn detour(&mut self, planned: &Planned) {
        let mut avoided = Vec::new();
        for _ in 0..1 + self.dice.below(3) {
            let station = planned.book.station(&mut self.dice);
            avoided.push(planned.plan.entries[station]);
        }
        self.write_other(planned, &planned.avoiding(&avoided));
    }

    /// A grade next to the old one, or far from it.
    fn damage_grade(&mut self, planned: &Planned) {
        let kind = planned.book.kind;
        if planned.book.links() > 0 {
            let link = planned.book.link(&mut self.dice);
            // The start label becomes what the grade is.
            let grade = kind.carry(kind.ranked(0), planned.grades[link]);
            let grade = planned.other_label(&mut self.dice, grade);
            self.write_grade(link, grade);
        }
    }

    fn damage_gateway(&mut self, planned: &Planned) {
        let gateway = planned.book.gateway;
        if self.dice.percent(50) {
            let label = planned.other_label(&mut self.dice, planned.plan.labels[gateway]);
            self.write_label(gateway, label);
        } else {
            self.damage_entry(planned, gateway);
        }
    }

    fn damage(&mut self, planned: &Planned) {
        let gateway = planned.book.gateway;
        let station = planned.book.station(&mut self.dice);
        match self.dice.below(100) {
            0..=3 => self.damage_gateway(planned),
            4..=34 => self.detour(planned),
            _ if station == gateway => self.enter_along(planned),
            35..=51 => {
                let label = planned.other_label(&mut self.dice, planned.plan.labels[station]);
                self.write_label(station, label);
            }
            52..=68 => self.damage_entry(planned, station),
            69..=79 => self.enter_otherwise(planned, station),
            80..=89 => self.write_entry(station, UNLABELLED),
            _ => self.enter_along(planned),
        }
    }

    /// Damages what is at rest, more and more, and looks each time.
    pub fn damage_and_check(&mut self, planned: &Planned) {
        let gateway = planned.book.gateway;
        let grades_too = self.dice.percent(20);
        for _ in 0..self.dice.pick(&[1, 2, 2, 3, 3]) {
            for _ in 0..self.dice.pick(&[1, 1, 1, 2, 3]) {
                if grades_too && self.dice.percent(60) {
                    self.damage_grade(planned);
                } else {
                    self.damage(planned);
                }
            }
            self.check(gateway);
        }
        if grades_too {
            self.grade_line(&planned.grades);
            self.check(gateway);
        }
    }
}
