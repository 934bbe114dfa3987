//! Buckets of ranks, searched round from the bucket of the last pick.

use super::{refusal, Order};
use crate::faults::Refusal;
use crate::kinds::Kind;

const MOST_BUCKETS: i64 = 64;

pub struct Bucket {
    kind: Kind,
    width: i64,
    /// The oldest of each bucket is first.
    buckets: Vec<Vec<usize>>,
    /// The bucket of the last pick.
    last: usize,
}

impl Bucket {
    pub fn new(kind: Kind, width: i64, span: i64) -> Result<Bucket, Refusal> {
        if width == 0 || span / width + 1 > MOST_BUCKETS {
            return Err(refusal(15));
        }
        Ok(Bucket {
            kind,
            width,
            buckets: vec![Vec::new(); (span / width + 1) as usize],
            last: 0,
        })
    }

    /// The bucket for a station by its label. A label that is missing ranks 0.
    fn bucket_for(&self, station: usize, labels: &[i64]) -> usize {
        let rank = labels
            .get(station)
            .map_or(0, |&label| self.kind.rank(label));
        (rank / self.width) as usize % self.buckets.len()
    }

    /// The bucket in which a station waits.
    fn bucket_of(&self, station: usize) -> Option<usize> {
        self.buckets
            .iter()
            .position(|bucket| bucket.contains(&station))
    }
}

impl Order for Bucket {
    fn empty(&mut self) {
        for bucket in &mut self.buckets {
            bucket.clear();
        }
        self.last = 0;
    }

    fn holds(&self, station: usize) -> bool {
        self.bucket_of(station).is_some()
    }

    fn add(&mut self, station: usize, labels: &[i64]) {
        let bucket = self.bucket_for(station, labels);
        self.buckets[bucket].push(station);
    }

    /// The station moves if its bucket is now another.
    fn enter_again(&mut self, station: usize, labels: &[i64]) {
        let bucket = self.bucket_for(station, labels);
        if self.bucket_of(station) != Some(bucket) {
            for old in &mut self.buckets {
                old.retain(|&other| other != station);
            }
            self.buckets[bucket].push(station);
        }
    }

    fn pick(&mut self, _labels: &[i64]) -> Option<usize> {
        let count = self.buckets.len();
        let found = (0..count)
            .map(|step| (self.last + step) % count)
            .find(|&bucket| !self.buckets[bucket].is_empty())?;
        self.last = found;
        Some(self.buckets[found].remove(0))
    }

    fn waiting(&self) -> usize {
        self.buckets.iter().map(Vec::len).sum()
    }
}

#[cfg(test)]
mod tests {
    use super::super::tests::{enter_new, list, pick_all};
    use super::super::{refusal, Design, Entered, List};
    use crate::kinds::Kind;

    const TOP: i64 = 4_294_967_295;

    fn bucket(kind: Kind, width: i64, span: i64) -> List {
        list(kind, Design::Bucket { width, span })
    }

    #[test]
    fn refusal_15_buckets() {
        let made = |width, span| List::new(Kind::Margin, Design::Bucket { width, span }).err();
        for (width, span) in [
            (2, 127),
            (1, 63),
            (1, 0),
            (TOP, TOP),
            (TOP, 0),
            (1 << 26, TOP),
        ] {
            assert_eq!(made(width, span), None, "{width} {span}");
        }
        for (width, span) in [
            (0, 0),
            (0, TOP),
            (1, 64),
            (2, 128),
            (1, TOP),
            ((1 << 26) - 1, TOP),
        ] {
            assert_eq!(made(width, span), Some(refusal(15)), "{width} {span}");
        }
    }

    #[test]
    fn low_buckets_come_first_and_the_oldest_in_each() {
        // Buckets of ranks 0 to 9, 10 to 19 and 20 to 29.
        let labels = [25, 19, 3, 10, 0];
        let mut list = bucket(Kind::Airtime, 10, 29);
        enter_new(&mut list, &[0, 1, 2, 3, 4], &labels);
        assert_eq!(pick_all(&mut list, &[]), [2, 4, 1, 3, 0]);
    }

    #[test]
    fn buckets_are_those_of_the_rank() {
        let labels = [127, 126, 0, -128];
        let mut list = bucket(Kind::Margin, 4, 255);
        enter_new(&mut list, &[3, 2, 1, 0], &labels);
        assert_eq!(pick_all(&mut list, &[]), [1, 0, 2, 3]);
    }

    #[test]
    fn a_missing_label_ranks_0() {
        let labels = [1, 0];
        let mut list = bucket(Kind::Chance, 65536, 65536);
        enter_new(&mut list, &[1, 2, 0], &labels);
        assert_eq!(pick_all(&mut list, &[]), [2, 0, 1]);
    }

    #[test]
    fn the_search_begins_at_the_last_pick_and_goes_round() {
        let labels = [0, 10, 20, 30];
        let mut list = bucket(Kind::Airtime, 10, 29);
        // Rank 30 has bucket 0 again.
        enter_new(&mut list, &[2], &labels);
        assert_eq!(list.pick(&[]), Some(2));
        enter_new(&mut list, &[3, 1, 0, 2], &labels);
        assert_eq!(pick_all(&mut list, &[]), [2, 3, 0, 1]);
    }

    #[test]
    fn a_pick_of_none_leaves_the_search_where_it_was_and_emptying_does_not() {
        let labels = [0, 10];
        let mut list = bucket(Kind::Airtime, 10, 29);
        enter_new(&mut list, &[1], &labels);
        assert_eq!(pick_all(&mut list, &[]), [1]);
        assert_eq!(list.pick(&[]), None);
        enter_new(&mut list, &[0, 1], &labels);
        assert_eq!(pick_all(&mut list, &[]), [1, 0]);
        enter_new(&mut list, &[1], &labels);
        assert_eq!(list.pick(&[]), Some(1));
        list.empty();
        enter_new(&mut list, &[1, 0], &labels);
        assert_eq!(pick_all(&mut list, &[]), [0, 1]);
    }

    #[test]
    fn the_last_pick_was_where_the_station_lay() {
        let mut list = bucket(Kind::Airtime, 10, 29);
        enter_new(&mut list, &[0], &[10, 0, 10]);
        // Its label is now of bucket 2, but it lay in bucket 1.
        assert_eq!(list.pick(&[20, 0, 10]), Some(0));
        enter_new(&mut list, &[1, 2], &[20, 0, 10]);
        assert_eq!(pick_all(&mut list, &[]), [2, 1]);
    }

    #[test]
    fn a_waiting_station_moves_only_to_another_bucket() {
        let mut list = bucket(Kind::Airtime, 10, 29);
        enter_new(&mut list, &[0, 1, 2, 3], &[0, 0, 10, 0]);
        // Another label of the same bucket: it stays the oldest.
        assert_eq!(list.enter(0, &[9, 0, 10, 0]), Ok(Entered::Waiting));
        // Another bucket: it is the newest there, behind station 2.
        assert_eq!(list.enter(1, &[9, 19, 10, 0]), Ok(Entered::Waiting));
        assert_eq!(list.waiting(), 4);
        assert_eq!(pick_all(&mut list, &[]), [0, 3, 2, 1]);
    }

    #[test]
    fn a_waiting_station_may_move_for_want_of_its_label() {
        let mut list = bucket(Kind::Airtime, 1, 9);
        enter_new(&mut list, &[0, 1, 2], &[1, 1, 0]);
        assert_eq!(list.enter(0, &[]), Ok(Entered::Waiting));
        assert_eq!(pick_all(&mut list, &[]), [2, 0, 1]);
    }
}
