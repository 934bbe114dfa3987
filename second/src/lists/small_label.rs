//! A station that is no worse than the top one goes to the top, any other to the bottom.

use super::queue::Rule;
use crate::kinds::Kind;
use std::collections::VecDeque;

pub struct SmallLabel(pub Kind);

impl Rule for SmallLabel {
    // Without both labels there is nothing to compare.
    fn leads(&mut self, station: usize, queue: &VecDeque<usize>, labels: &[i64]) -> bool {
        let rival = queue.front().and_then(|&top| labels.get(top));
        match (labels.get(station), rival) {
            (Some(&own), Some(&rival)) => self.0.at_least_as_good(own, rival),
            _ => false,
        }
    }
}

#[cfg(test)]
mod tests {
    use super::super::tests::{enter_new, list, pick_all};
    use super::super::{Design, Entered, List};
    use crate::kinds::Kind;

    fn small_label(kind: Kind) -> List {
        list(kind, Design::SmallLabel)
    }

    #[test]
    fn better_and_equal_labels_go_to_the_top() {
        let labels = [5, 6, 5, 4, 9];
        let mut list = small_label(Kind::Airtime);
        enter_new(&mut list, &[0, 1, 2, 3, 4], &labels);
        assert_eq!(pick_all(&mut list, &labels), [3, 2, 0, 1, 4]);
        let mut list = small_label(Kind::Margin);
        enter_new(&mut list, &[0, 1, 2, 3, 4], &labels);
        assert_eq!(pick_all(&mut list, &labels), [4, 1, 0, 2, 3]);
    }

    #[test]
    fn labels_are_those_of_this_entering() {
        let mut list = small_label(Kind::Airtime);
        enter_new(&mut list, &[0], &[1, 2]);
        enter_new(&mut list, &[1], &[3, 2]);
        assert_eq!(pick_all(&mut list, &[]), [1, 0]);
    }

    #[test]
    fn a_waiting_station_stays_in_its_place() {
        let mut list = small_label(Kind::Airtime);
        enter_new(&mut list, &[0, 1], &[5, 6]);
        assert_eq!(list.enter(1, &[5, 0]), Ok(Entered::Waiting));
        assert_eq!(pick_all(&mut list, &[]), [0, 1]);
    }

    #[test]
    fn without_its_own_label_a_station_goes_to_the_bottom() {
        let mut list = small_label(Kind::Airtime);
        enter_new(&mut list, &[0, 2, 1], &[5, 5]);
        assert_eq!(pick_all(&mut list, &[]), [1, 0, 2]);
    }

    #[test]
    fn without_its_rivals_label_a_station_goes_to_the_bottom() {
        let mut list = small_label(Kind::Airtime);
        enter_new(&mut list, &[2, 0, 1], &[5, 5]);
        assert_eq!(pick_all(&mut list, &[]), [2, 0, 1]);
    }
}
