//! Candidate lists: the stations that wait to be picked. The lists are plain queues that are
//! searched from end to end, so that each reads as its rule.

mod bucket;
mod first_in;
mod queue;
mod small_label;
mod threshold;
mod two_ended;

use crate::faults::Refusal;
use crate::kinds::Kind;
use crate::net::MOST_STATIONS;
use first_in::FirstIn;
use queue::Queue;
use small_label::SmallLabel;
use two_ended::TwoEnded;

/// Which list, with what it is made from.
#[derive(Clone, Copy, Debug, PartialEq)]
pub enum Design {
    FirstIn,
    TwoEnded,
    SmallLabel,
    Threshold { step: i64 },
    Bucket { width: i64, span: i64 },
}

impl Design {
    pub fn name(self) -> &'static str {
        match self {
            Design::FirstIn => "first-in",
            Design::TwoEnded => "two-ended",
            Design::SmallLabel => "small-label",
            Design::Threshold { .. } => "threshold",
            Design::Bucket { .. } => "bucket",
        }
    }
}

#[derive(Clone, Copy, Debug, PartialEq)]
pub enum Entered {
    New,
    Waiting,
}

/// The rule of one list. The label of station s is handed over at index s, if at all.
trait Order {
    fn empty(&mut self);

    fn holds(&self, station: usize) -> bool;

    /// Takes a station that was not waiting.
    fn add(&mut self, station: usize, labels: &[i64]);

    /// A waiting station enters again; mostly it stays in its place.
    fn enter_again(&mut self, _station: usize, _labels: &[i64]) {}

    fn pick(&mut self, labels: &[i64]) -> Option<usize>;

    fn waiting(&self) -> usize;
}

/// A candidate list of any rule.
pub struct List {
    order: Box<dyn Order>,
}

impl List {
    pub fn new(kind: Kind, design: Design) -> Result<List, Refusal> {
        let order: Box<dyn Order> = match design {
            Design::FirstIn => Box::new(Queue::new(FirstIn)),
            Design::TwoEnded => Box::new(Queue::new(TwoEnded::default())),
            Design::SmallLabel => Box::new(Queue::new(SmallLabel(kind))),
            Design::Threshold { step } => {
                Box::new(threshold::Threshold::new(kind, kind.make(step)?))
            }
            Design::Bucket { width, span } => Box::new(bucket::Bucket::new(kind, width, span)?),
        };
        Ok(List { order })
    }

    /// The list that a site begins with.
    pub fn first_in() -> List {
        List {
            order: Box::new(Queue::new(FirstIn)),
        }
    }

    pub fn empty(&mut self) {
        self.order.empty();
    }

    pub fn enter(&mut self, station: usize, labels: &[i64]) -> Result<Entered, Refusal> {
        if station >= MOST_STATIONS {
            return Err(refusal(14));
        }
        if self.order.holds(station) {
            self.order.enter_again(station, labels);
            return Ok(Entered::Waiting);
        }
        self.order.add(station, labels);
        Ok(Entered::New)
    }

    /// Takes a waiting station off the list; none only if none waits.
    pub fn pick(&mut self, labels: &[i64]) -> Option<usize> {
        self.order.pick(labels)
    }

    pub fn waiting(&self) -> usize {
        self.order.waiting()
    }
}

fn refusal(number: u8) -> Refusal {
    Refusal {
        number,
        place: 0,
        layer: "list",
    }
}

#[cfg(test)]
mod tests {
    use super::*;

    const DESIGNS: [Design; 5] = [
        Design::FirstIn,
        Design::TwoEnded,
        Design::SmallLabel,
        Design::Threshold { step: 3 },
        Design::Bucket { width: 2, span: 7 },
    ];

    pub fn list(kind: Kind, design: Design) -> List {
        List::new(kind, design).expect("a lawful list")
    }

    /// Enters stations that were not waiting, all with the same labels.
    pub fn enter_new(list: &mut List, stations: &[usize], labels: &[i64]) {
        for &station in stations {
            assert_eq!(list.enter(station, labels), Ok(Entered::New));
        }
    }

    /// Picks until none waits.
    pub fn pick_all(list: &mut List, labels: &[i64]) -> Vec<usize> {
        let mut picked = Vec::new();
        while let Some(station) = list.pick(labels) {
            picked.push(station);
        }
        assert_eq!(list.waiting(), 0);
        picked
    }

    #[test]
    fn each_station_waits_once_until_it_is_picked() {
        for design in DESIGNS {
            let mut list = list(Kind::Airtime, design);
            assert_eq!((list.waiting(), list.pick(&[])), (0, None));
            enter_new(&mut list, &[4, 0, 1023], &[5, 5, 5, 5, 5]);
            assert_eq!(list.enter(4, &[]), Ok(Entered::Waiting));
            assert_eq!(list.waiting(), 3);
            let mut picked = pick_all(&mut list, &[5]);
            picked.sort_unstable();
            assert_eq!(picked, [0, 4, 1023]);
            enter_new(&mut list, &[4], &[]);
            list.empty();
            assert_eq!((list.waiting(), list.pick(&[])), (0, None));
            enter_new(&mut list, &[4], &[]);
        }
    }

    #[test]
    fn refusal_14_station() {
        for design in DESIGNS {
            let mut list = list(Kind::Margin, design);
            enter_new(&mut list, &[1023], &[]);
            assert_eq!(list.enter(1024, &[]), Err(refusal(14)));
            assert_eq!(list.enter(65535, &[]), Err(refusal(14)));
            assert_eq!(list.waiting(), 1);
            assert_eq!(pick_all(&mut list, &[]), [1023]);
        }
    }

    #[test]
    fn every_station_can_wait() {
        for design in DESIGNS {
            let mut list = list(Kind::Chance, design);
            let stations: Vec<usize> = (0..1024).collect();
            enter_new(&mut list, &stations, &[]);
            assert_eq!(list.waiting(), 1024);
            assert_eq!(pick_all(&mut list, &[]), stations);
        }
    }

    #[test]
    fn a_step_is_a_grade_of_the_kind() {
        let step = |kind, step| List::new(kind, Design::Threshold { step }).err();
        assert_eq!(step(Kind::Chance, 65536), None);
        let refusal = step(Kind::Chance, 65537).expect("no chance");
        assert_eq!((refusal.number, refusal.place), (13, 0));
        assert_eq!(refusal.layer, "kind");
        assert_eq!(step(Kind::Airtime, 65537), None);
    }
}
