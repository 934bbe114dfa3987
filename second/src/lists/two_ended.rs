//! A station's first entry goes to the bottom, a later one to the top.

use super::queue::Rule;
use std::collections::VecDeque;

#[derive(Default)]
pub struct TwoEnded {
    /// Who has entered since the last emptying, waiting or not.
    entered: Vec<usize>,
}

impl Rule for TwoEnded {
    fn leads(&mut self, station: usize, _queue: &VecDeque<usize>, _labels: &[i64]) -> bool {
        let back = self.entered.contains(&station);
        if !back {
            self.entered.push(station);
        }
        back
    }

    fn forget(&mut self) {
        self.entered.clear();
    }
}

#[cfg(test)]
mod tests {
    use super::super::tests::{enter_new, list, pick_all};
    use super::super::{Design, Entered, List};
    use crate::kinds::Kind;

    fn two_ended() -> List {
        list(Kind::Airtime, Design::TwoEnded)
    }

    #[test]
    fn later_entries_go_to_the_top() {
        let mut list = two_ended();
        enter_new(&mut list, &[2, 1, 0], &[]);
        assert_eq!((list.pick(&[]), list.pick(&[])), (Some(2), Some(1)));
        enter_new(&mut list, &[2, 3, 1], &[]);
        assert_eq!(pick_all(&mut list, &[]), [1, 2, 0, 3]);
    }

    #[test]
    fn a_waiting_station_stays_in_its_place() {
        let mut list = two_ended();
        enter_new(&mut list, &[0, 1, 2], &[]);
        assert_eq!(list.enter(2, &[]), Ok(Entered::Waiting));
        assert_eq!(pick_all(&mut list, &[]), [0, 1, 2]);
    }

    #[test]
    fn running_empty_by_picks_forgets_no_entry() {
        let mut list = two_ended();
        enter_new(&mut list, &[0, 1], &[]);
        pick_all(&mut list, &[]);
        assert_eq!(list.pick(&[]), None);
        enter_new(&mut list, &[2, 0, 1], &[]);
        assert_eq!(pick_all(&mut list, &[]), [1, 0, 2]);
    }

    #[test]
    fn emptying_forgets_all_entries() {
        let mut list = two_ended();
        enter_new(&mut list, &[0, 1], &[]);
        list.empty();
        enter_new(&mut list, &[2, 0, 1], &[]);
        assert_eq!(pick_all(&mut list, &[]), [2, 0, 1]);
    }
}
