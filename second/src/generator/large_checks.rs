//! Lines about the check of large nets at random, with faults at the first and the last of their
//! stations and links.

use super::book_rows::Book;
use super::kind::{Kind, KINDS};
use super::net::{Net, MOST_LINKS, MOST_STATIONS};
use super::plan::{Planned, OWN, UNLABELLED};
use super::rows::Sort;
use super::script::Script;

impl Script {
    fn mend(&mut self, planned: &Planned, station: usize) {
        self.write_label(station, planned.plan.labels[station]);
        self.write_entry(station, planned.plan.entries[station]);
    }

    /// What is told of one station, damaged in each way by itself.
    fn damage_station(&mut self, planned: &Planned, station: usize) {
        let gateway = planned.book.gateway;
        let entry = planned.plan.entries[station];
        let label = planned.other_label(&mut self.dice, planned.plan.labels[station]);
        self.write_label(station, label);
        self.check(gateway);
        self.mend(planned, station);
        for entry in [OWN, UNLABELLED, entry ^ 1, planned.book.links()] {
            self.write_entry(station, entry);
            self.check(gateway);
        }
        self.mend(planned, station);
    }

    /// The first, some and the last of the links that no way takes, and that would bring more if
    /// their grade were as good as can be.
    fn better_links(&mut self, planned: &Planned) {
        let (book, plan) = (&planned.book, &planned.plan);
        let rank = |station: usize| book.kind.rank(plan.labels[station]);
        let brings = |&link: &usize| {
            let (tail, head) = (book.net.tail(link), book.net.heads[link]);
            plan.reaches(tail) && plan.entries[head] != link && rank(tail) < rank(head)
        };
        let links: Vec<usize> = (0..book.links()).filter(brings).collect();
        let (first, last) = match (links.first(), links.last()) {
            (Some(&first), Some(&last)) => (first, last),
            _ => return,
        };
        let some = self.dice.pick(&links);
        for link in [last, some, first] {
            self.write_grade(link, book.kind.ranked(0));
            self.check(book.gateway);
        }
        self.grade_line(&planned.grades);
        self.check(book.gateway);
    }

    /// The best plan that leaves out one station.
    fn cut_off(&mut self, planned: &Planned, station: usize) {
        let avoided = planned.book.net.links_into(station);
        self.write_other(planned, &planned.avoiding(&avoided));
        self.check(planned.book.gateway);
    }

    /// Each kind on a net at random.
    pub fn large_checks(&mut self) {
        for (kind, list) in KINDS
            .into_iter()
            .zip(["small-label", "two-ended", "first-in"])
        {
            self.row(Sort::LargeCheck, |script| {
                let net = Net::random(&mut script.dice, MOST_STATIONS, MOST_LINKS);
                script.large_check(kind, list, net);
            });
        }
    }

    /// A net of hundreds of stations.
    pub fn large_check(&mut self, kind: Kind, list: &str, net: Net) {
        let (stations, links) = (net.stations(), net.links());
        let gateway = 1 + self.dice.below(stations - 2);
        let grades = (0..links).map(|_| large_grade(kind, self)).collect();
        let planned = Planned::new(Book { net, kind, gateway }, grades);
        self.line(&planned.book.net.words());
        self.words(&format!("kind {}", kind.name()));
        self.words(&format!("list {list}"));
        self.grade_line(&planned.grades);
        self.check(gateway);
        self.words(&format!("start {gateway}"));
        for allowed in [1, 300, 65535] {
            self.check(gateway);
            self.words(&format!("work {allowed}"));
        }
        self.check(gateway);
        self.check(gateway + 1);
        let reached: Vec<usize> = (0..stations)
            .filter(|&station| station != gateway && planned.plan.reaches(station))
            .collect();
        let (first, last) = match (reached.first(), reached.last()) {
            (Some(&first), Some(&last)) => (first, last),
            // A gateway without a link to another station.
            _ => return,
        };
        let middle = self.dice.pick(&reached);
        for station in [first, last, middle] {
            self.damage_station(&planned, station);
        }
        // Of several the lowest.
        self.write_entry(last, links);
        self.check(gateway);
        self.write_entry(middle, OWN);
        self.check(gateway);
        self.write_entry(first, 65533);
        self.check(gateway);
        for station in [first, last, middle] {
            self.mend(&planned, station);
        }
        self.better_links(&planned);
        let mut cut = [middle, last, first];
        cut.sort_by_key(|&station| planned.book.net.links_into(station)[0]);
        for station in cut.into_iter().rev() {
            self.cut_off(&planned, station);
        }
        self.words(&format!("start {gateway}"));
        self.text("work 65535\n");
        self.check(gateway);
        self.words(&format!("resize labels {}", stations + 1));
        self.check(gateway);
    }
}

/// Ways of several links must stay apart.
fn large_grade(kind: Kind, script: &mut Script) -> i64 {
    match kind {
        Kind::Airtime => 1 + script.dice.below(100_000) as i64,
        Kind::Chance => 65536 - script.dice.below(9000) as i64,
        Kind::Margin => script.dice.below(256) as i64 - 128,
    }
}
