//! First in, first picked.

use super::queue::Rule;
use std::collections::VecDeque;

pub struct FirstIn;

impl Rule for FirstIn {
    fn leads(&mut self, _station: usize, _queue: &VecDeque<usize>, _labels: &[i64]) -> bool {
        false
    }
}

#[cfg(test)]
mod tests {
    use super::super::tests::{enter_new, list, pick_all};
    use super::super::{Design, Entered};
    use crate::kinds::Kind;

    #[test]
    fn stations_leave_as_they_came() {
        let mut list = list(Kind::Airtime, Design::FirstIn);
        enter_new(&mut list, &[3, 1, 2], &[9, 8, 7, 6]);
        assert_eq!(list.pick(&[]), Some(3));
        enter_new(&mut list, &[3, 0], &[]);
        assert_eq!(pick_all(&mut list, &[]), [1, 2, 3, 0]);
    }

    #[test]
    fn a_waiting_station_stays_in_its_place() {
        let mut list = list(Kind::Airtime, Design::FirstIn);
        enter_new(&mut list, &[0, 1, 2], &[]);
        assert_eq!(list.enter(0, &[]), Ok(Entered::Waiting));
        assert_eq!(list.enter(2, &[]), Ok(Entered::Waiting));
        assert_eq!(pick_all(&mut list, &[]), [0, 1, 2]);
    }
}
