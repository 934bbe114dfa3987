//! The kinds of grade. Grades and labels of every kind are plain i64, wide enough for all sums
//! and products below.

use crate::faults::Refusal;

const AIRTIME_CAP: i64 = 4_294_967_295;
const CHANCE_ONE: i64 = 65_536;
const MARGIN_LOW: i64 = -128;
const MARGIN_HIGH: i64 = 127;

#[derive(Clone, Copy, Debug, PartialEq)]
pub enum Kind {
    /// Microseconds, added up.
    Airtime,
    /// Parts of 65536, multiplied.
    Chance,
    /// Decibels, the smallest counts.
    Margin,
}

impl Kind {
    pub fn named(name: &[u8]) -> Option<Kind> {
        [Kind::Airtime, Kind::Chance, Kind::Margin]
            .into_iter()
            .find(|kind| kind.name().as_bytes() == name)
    }

    pub fn name(self) -> &'static str {
        match self {
            Kind::Airtime => "airtime",
            Kind::Chance => "chance",
            Kind::Margin => "margin",
        }
    }

    /// The lowest and the highest number that a list of grades may hold.
    pub fn range(self) -> (i64, i64) {
        match self {
            Kind::Airtime | Kind::Chance => (0, AIRTIME_CAP),
            Kind::Margin => (MARGIN_LOW, MARGIN_HIGH),
        }
    }

    /// The grade that a number of that range reads as.
    pub fn read(self, number: i64) -> i64 {
        match self {
            Kind::Chance => number.min(CHANCE_ONE),
            Kind::Airtime | Kind::Margin => number,
        }
    }

    /// The grade that a single number of that range makes.
    pub fn make(self, number: i64) -> Result<i64, Refusal> {
        if self.read(number) == number {
            Ok(number)
        } else {
            Err(Refusal {
                number: 13,
                place: 0,
                layer: "kind",
            })
        }
    }

    /// The start label.
    pub fn start(self) -> i64 {
        match self {
            Kind::Airtime => 0,
            Kind::Chance => CHANCE_ONE,
            Kind::Margin => MARGIN_HIGH,
        }
    }

    /// The label carried over a link of that grade.
    pub fn carry(self, label: i64, grade: i64) -> i64 {
        match self {
            Kind::Airtime => (label + grade).min(AIRTIME_CAP),
            Kind::Chance => label * grade / CHANCE_ONE,
            Kind::Margin => label.min(grade),
        }
    }

    /// Whether a label is better than another or equal to it.
    pub fn at_least_as_good(self, label: i64, other: i64) -> bool {
        match self {
            Kind::Airtime => label <= other,
            Kind::Chance | Kind::Margin => label >= other,
        }
    }

    pub fn better(self, label: i64, other: i64) -> bool {
        label != other && self.at_least_as_good(label, other)
    }

    /// How far a label is from the best one; it fits 32 bits.
    pub fn rank(self, label: i64) -> i64 {
        match self {
            Kind::Airtime => label,
            Kind::Chance => CHANCE_ONE - label,
            Kind::Margin => MARGIN_HIGH - label,
        }
    }
}

#[cfg(test)]
mod tests {
    use super::*;

    #[test]
    fn names() {
        assert_eq!(Kind::named(b"airtime"), Some(Kind::Airtime));
        assert_eq!(Kind::named(b"chance"), Some(Kind::Chance));
        assert_eq!(Kind::named(b"margin"), Some(Kind::Margin));
        assert_eq!(Kind::named(b"Margin"), None);
        assert_eq!(Kind::named(b""), None);
    }

    #[test]
    fn airtime_stops_at_its_cap() {
        let kind = Kind::Airtime;
        assert_eq!(kind.carry(kind.start(), 7), 7);
        assert_eq!(kind.carry(4_294_967_290, 5), 4_294_967_295);
        assert_eq!(kind.carry(4_294_967_290, 6), 4_294_967_295);
        assert_eq!(kind.carry(AIRTIME_CAP, AIRTIME_CAP), AIRTIME_CAP);
    }

    #[test]
    fn chance_rounds_down() {
        let kind = Kind::Chance;
        assert_eq!(kind.carry(kind.start(), 12_345), 12_345);
        assert_eq!(kind.carry(32_768, 32_768), 16_384);
        assert_eq!(kind.carry(1, 65_535), 0);
        assert_eq!(kind.carry(65_535, 65_535), 65_534);
    }

    #[test]
    fn a_larger_chance_reads_as_one() {
        assert_eq!(Kind::Chance.read(65_536), 65_536);
        assert_eq!(Kind::Chance.read(65_537), 65_536);
        assert_eq!(Kind::Chance.read(4_294_967_295), 65_536);
        assert_eq!(Kind::Chance.read(65_535), 65_535);
        assert_eq!(Kind::Airtime.read(65_537), 65_537);
    }

    #[test]
    fn a_larger_chance_is_not_made() {
        let refusal = Refusal {
            number: 13,
            place: 0,
            layer: "kind",
        };
        assert_eq!(Kind::Chance.make(65_536), Ok(65_536));
        assert_eq!(Kind::Chance.make(65_537), Err(refusal));
        assert_eq!(Kind::Airtime.make(4_294_967_295), Ok(4_294_967_295));
        assert_eq!(Kind::Margin.make(-128), Ok(-128));
    }

    #[test]
    fn less_airtime_more_chance_and_more_margin_are_better() {
        for (kind, better, worse) in [
            (Kind::Airtime, 3, 4),
            (Kind::Chance, 4, 3),
            (Kind::Margin, 4, -3),
        ] {
            assert!(kind.at_least_as_good(better, worse));
            assert!(kind.at_least_as_good(worse, worse));
            assert!(!kind.at_least_as_good(worse, better));
            assert!(kind.better(better, worse));
            assert!(!kind.better(worse, worse));
            assert!(!kind.better(worse, better));
        }
    }

    #[test]
    fn ranks_count_from_the_best_label() {
        for (kind, worst, rank) in [
            (Kind::Airtime, AIRTIME_CAP, 4_294_967_295),
            (Kind::Chance, 0, 65_536),
            (Kind::Margin, MARGIN_LOW, 255),
        ] {
            assert_eq!(kind.rank(kind.start()), 0);
            assert_eq!(kind.rank(worst), rank);
        }
    }

    #[test]
    fn margin_keeps_the_smaller() {
        let kind = Kind::Margin;
        assert_eq!(kind.carry(kind.start(), 12), 12);
        assert_eq!(kind.carry(-3, 5), -3);
        assert_eq!(kind.carry(127, -128), -128);
    }
}
