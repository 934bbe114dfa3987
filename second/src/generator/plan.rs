//! The best labels and their entries, as the generator finds them by itself, so that it knows
//! what it damages.

use super::book_rows::Book;
use super::dice::Dice;
use super::kind::Kind;
use super::net::Net;

pub const OWN: usize = 65534;
pub const UNLABELLED: usize = 65535;

pub struct Plan {
    pub labels: Vec<i64>,
    pub entries: Vec<usize>,
}

impl Plan {
    pub fn reaches(&self, station: usize) -> bool {
        self.entries[station] != UNLABELLED
    }
}

/// A book, and what its labels and entries are when no station waits.
pub struct Planned {
    pub book: Book,
    pub grades: Vec<i64>,
    pub plan: Plan,
}

impl Planned {
    pub fn new(book: Book, grades: Vec<i64>) -> Planned {
        let plan = best(&book, &grades, &[]);
        Planned { book, grades, plan }
    }

    /// Few stations. From the gateway all can be reached, or not.
    pub fn small(dice: &mut Dice, kind: Kind) -> Planned {
        let stations = dice.pick(&[2, 3, 4, 5, 5, 6, 6, 7, 8]);
        let more = dice.below(stations + 3);
        let (net, root) = if dice.percent(25) {
            (Net::random(dice, stations, stations + more), 0)
        } else {
            Net::grown(dice, stations, more)
        };
        let gateway = if dice.percent(60) {
            root
        } else {
            dice.below(stations)
        };
        let grades = (0..net.links()).map(|_| kind.close(dice)).collect();
        Planned::new(Book { net, kind, gateway }, grades)
    }

    pub fn regrade(&mut self, link: usize, grade: i64) {
        self.grades[link] = grade;
        self.plan = best(&self.book, &self.grades, &[]);
    }

    /// The best plan without these links.
    pub fn avoiding(&self, links: &[usize]) -> Plan {
        best(&self.book, &self.grades, links)
    }

    /// What a link brings from its tail.
    pub fn carried(&self, link: usize) -> i64 {
        let label = self.plan.labels[self.book.net.tail(link)];
        self.book.kind.carry(label, self.grades[link])
    }

    /// A label next to one, or far from it.
    pub fn other_label(&self, dice: &mut Dice, label: i64) -> i64 {
        let kind = self.book.kind;
        let rank = kind.rank(label);
        let rank = match dice.below(10) {
            0 => 0,
            1 => kind.top_rank(),
            2 => kind.rank(dice.pick(&self.plan.labels)),
            3 => return kind.close(dice),
            4..=6 => rank.saturating_sub(1),
            _ => rank + 1,
        };
        kind.ranked(rank)
    }
}

/// Goes through all links but the avoided ones until none brings more.
fn best(book: &Book, grades: &[i64], avoided: &[usize]) -> Plan {
    let (net, kind) = (&book.net, book.kind);
    let mut plan = Plan {
        labels: vec![kind.ranked(0); net.stations()],
        entries: vec![UNLABELLED; net.stations()],
    };
    plan.entries[book.gateway] = OWN;
    let links: Vec<usize> = (0..net.links())
        .filter(|link| !avoided.contains(link))
        .collect();
    loop {
        let mut changed = false;
        for &link in &links {
            let (tail, head) = (net.tail(link), net.heads[link]);
            let carried = kind.carry(plan.labels[tail], grades[link]);
            let better = kind.rank(carried) < kind.rank(plan.labels[head]);
            if plan.reaches(tail) && (better || !plan.reaches(head)) {
                plan.labels[head] = carried;
                plan.entries[head] = link;
                changed = true;
            }
        }
        if !changed {
            return plan;
        }
    }
}
