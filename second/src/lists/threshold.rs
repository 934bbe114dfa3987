//! Two queues, parted by a threshold that moves when the first has run out.

use super::Order;
use crate::kinds::Kind;
use std::collections::VecDeque;

pub struct Threshold {
    kind: Kind,
    step: i64,
    threshold: i64,
    first: VecDeque<usize>,
    second: VecDeque<usize>,
}

impl Threshold {
    pub fn new(kind: Kind, step: i64) -> Threshold {
        Threshold {
            kind,
            step,
            threshold: kind.start(),
            first: VecDeque::new(),
            second: VecDeque::new(),
        }
    }

    /// The best label in the second queue, or none if one is missing or nobody waits there.
    fn best(&self, labels: &[i64]) -> Option<i64> {
        let handed: Option<Vec<i64>> = self
            .second
            .iter()
            .map(|&station| labels.get(station).copied())
            .collect();
        let better = |one, other| {
            if self.kind.at_least_as_good(one, other) {
                one
            } else {
                other
            }
        };
        handed?.into_iter().reduce(better)
    }

    /// Moves stations over from the second queue. Both queues keep the order of theirs.
    fn refill(&mut self, labels: &[i64]) {
        let best = self.best(labels);
        if let Some(best) = best {
            self.threshold = self.kind.carry(best, self.step);
        }
        let (kind, threshold) = (self.kind, self.threshold);
        // Where labels are missing, only their stations move.
        let moves = |station: &usize| match labels.get(*station) {
            Some(&label) => best.is_some() && kind.at_least_as_good(label, threshold),
            None => true,
        };
        let (moved, stayed): (Vec<usize>, Vec<usize>) = self.second.drain(..).partition(moves);
        self.first.extend(moved);
        self.second.extend(stayed);
    }
}

impl Order for Threshold {
    fn empty(&mut self) {
        self.first.clear();
        self.second.clear();
        self.threshold = self.kind.start();
    }

    fn holds(&self, station: usize) -> bool {
        self.first.contains(&station) || self.second.contains(&station)
    }

    fn add(&mut self, station: usize, labels: &[i64]) {
        match labels.get(station) {
            Some(&label) if !self.kind.at_least_as_good(label, self.threshold) => {
                self.second.push_back(station)
            }
            _ => self.first.push_back(station),
        }
    }

    fn pick(&mut self, labels: &[i64]) -> Option<usize> {
        if self.first.is_empty() {
            self.refill(labels);
        }
        self.first.pop_front()
    }

    fn waiting(&self) -> usize {
        self.first.len() + self.second.len()
    }
}

#[cfg(test)]
mod tests {
    use super::super::tests::{enter_new, list, pick_all};
    use super::super::{Design, Entered, List};
    use crate::kinds::Kind;

    fn threshold(kind: Kind, step: i64) -> List {
        list(kind, Design::Threshold { step })
    }

    #[test]
    fn labels_beyond_the_threshold_wait_in_the_second_queue() {
        let labels = [1, 0, 2, 0];
        let mut list = threshold(Kind::Airtime, 10);
        enter_new(&mut list, &[0, 1, 2, 3], &labels);
        assert_eq!(pick_all(&mut list, &labels), [1, 3, 0, 2]);
    }

    #[test]
    fn the_threshold_moves_to_the_best_label_and_a_step() {
        let labels = [9, 4, 7, 6, 5];
        let mut list = threshold(Kind::Airtime, 2);
        enter_new(&mut list, &[0, 1, 2, 3], &labels);
        // The best is 4, so the threshold is 6: stations 1 and 3 move, 0 and 2 stay.
        assert_eq!(list.pick(&labels), Some(1));
        // Station 4 is within the new threshold and goes behind 3, ahead of 0 and 2.
        enter_new(&mut list, &[4], &labels);
        assert_eq!(list.pick(&labels), Some(3));
        assert_eq!(list.pick(&labels), Some(4));
        // The best is 7, so the threshold is 9: both move in their order.
        assert_eq!(pick_all(&mut list, &labels), [0, 2]);
    }

    #[test]
    fn labels_of_the_pick_decide_who_moves() {
        let mut list = threshold(Kind::Airtime, 0);
        enter_new(&mut list, &[0, 1, 2], &[1, 2, 3]);
        assert_eq!(list.pick(&[9, 8, 3]), Some(2));
        assert_eq!(list.pick(&[9, 8, 3]), Some(1));
        assert_eq!(list.pick(&[9, 8, 3]), Some(0));
    }

    #[test]
    fn chances_and_margins_move_the_threshold_down() {
        let labels = [10000, 30000, 50000, 20000];
        let mut list = threshold(Kind::Chance, 32768);
        enter_new(&mut list, &[0, 1, 2, 3], &labels);
        // The threshold is 25000, then 10000.
        assert_eq!(pick_all(&mut list, &labels), [1, 2, 0, 3]);
        let labels = [10, 30, 50, 20];
        let mut list = threshold(Kind::Margin, 20);
        enter_new(&mut list, &[0, 1, 2, 3], &labels);
        // The threshold is 20, then 10: the smaller of label and step.
        assert_eq!(pick_all(&mut list, &labels), [1, 2, 3, 0]);
    }

    #[test]
    fn a_waiting_station_stays_in_its_place() {
        let mut list = threshold(Kind::Airtime, 10);
        enter_new(&mut list, &[0, 1], &[5, 0]);
        assert_eq!(list.enter(0, &[0, 0]), Ok(Entered::Waiting));
        assert_eq!(list.enter(1, &[0, 5]), Ok(Entered::Waiting));
        assert_eq!(pick_all(&mut list, &[0, 0]), [1, 0]);
    }

    #[test]
    fn without_its_label_a_station_enters_the_first_queue() {
        let mut list = threshold(Kind::Airtime, 10);
        enter_new(&mut list, &[0, 2], &[5, 5]);
        assert_eq!(pick_all(&mut list, &[5, 5]), [2, 0]);
    }

    #[test]
    fn stations_without_labels_move_alone_and_the_threshold_stays() {
        let labels = [5, 1, 5, 5];
        let mut list = threshold(Kind::Airtime, 10);
        enter_new(&mut list, &[3, 0, 2, 1], &labels);
        // Labels 2 and 3 are missing: these move in their order.
        assert_eq!(list.pick(&[5, 1]), Some(3));
        assert_eq!(list.pick(&[5, 1]), Some(2));
        // The threshold is still 0: station 2 goes to the second queue, behind 0 and 1.
        enter_new(&mut list, &[2], &labels);
        assert_eq!(pick_all(&mut list, &labels), [0, 1, 2]);
    }

    #[test]
    fn where_labels_are_missing_a_good_one_does_not_move() {
        let mut list = threshold(Kind::Airtime, 10);
        enter_new(&mut list, &[0, 1], &[5, 5]);
        // The label of station 0 is now within the threshold, but that of station 1 is missing.
        assert_eq!(list.pick(&[0]), Some(1));
        assert_eq!(list.pick(&[0]), Some(0));
    }

    #[test]
    fn only_emptying_sets_the_threshold_back() {
        let labels = [4, 6, 0];
        let mut list = threshold(Kind::Airtime, 2);
        enter_new(&mut list, &[0], &labels);
        assert_eq!(pick_all(&mut list, &labels), [0]);
        // The threshold is still 6.
        enter_new(&mut list, &[1, 2], &labels);
        assert_eq!(pick_all(&mut list, &labels), [1, 2]);
        list.empty();
        enter_new(&mut list, &[1, 2], &labels);
        assert_eq!(pick_all(&mut list, &labels), [2, 1]);
    }

    #[test]
    fn a_threshold_stops_at_the_cap() {
        let labels = [4294967295, 4294967290];
        let mut list = threshold(Kind::Airtime, 4294967295);
        enter_new(&mut list, &[0, 1], &labels);
        assert_eq!(pick_all(&mut list, &labels), [0, 1]);
    }
}
