//! The kinds of grade, and numbers of each.

use super::dice::Dice;

#[derive(Clone, Copy)]
pub enum Kind {
    Airtime,
    Chance,
    Margin,
}

pub const KINDS: [Kind; 3] = [Kind::Airtime, Kind::Chance, Kind::Margin];

impl Kind {
    pub fn name(self) -> &'static str {
        match self {
            Kind::Airtime => "airtime",
            Kind::Chance => "chance",
            Kind::Margin => "margin",
        }
    }

    /// Edge values often, else values that leave a path something to tell.
    pub fn grade(self, dice: &mut Dice) -> i64 {
        let edge = dice.percent(20);
        match self {
            Kind::Airtime if edge => dice.pick(&[
                0, 1, 65535, 65536, 2147483647, 2147483648, 4294967290, 4294967294, 4294967295,
            ]),
            Kind::Airtime if dice.percent(10) => dice.below(1 << 32) as i64,
            Kind::Airtime => dice.below(1000) as i64,
            Kind::Chance if edge => dice.pick(&[
                0, 1, 2, 32768, 65535, 65536, 65537, 131072, 2147483648, 4294967295,
            ]),
            Kind::Chance if dice.percent(20) => dice.below(65537) as i64,
            Kind::Chance => 50000 + dice.below(15537) as i64,
            Kind::Margin if edge => dice.pick(&[-128, -127, -1, 0, 1, 126, 127]),
            Kind::Margin if dice.percent(30) => dice.below(256) as i64 - 128,
            Kind::Margin => dice.below(128) as i64,
        }
    }

    /// Mostly so close to others that ways tie and overtake each other.
    pub fn close(self, dice: &mut Dice) -> i64 {
        if dice.percent(12) {
            return self.grade(dice);
        }
        match self {
            Kind::Airtime => dice.below(9) as i64,
            Kind::Chance => 65536 - 4096 * dice.below(9) as i64,
            Kind::Margin => dice.below(12) as i64 - 4,
        }
    }

    /// Mostly worse than those that are close.
    pub fn bad(self, dice: &mut Dice) -> i64 {
        match self {
            Kind::Airtime => dice.pick(&[9, 50, 1000, 4294967295]),
            Kind::Chance => dice.pick(&[0, 1, 4096, 20000]),
            Kind::Margin => dice.pick(&[-128, -100, -20, -5]),
        }
    }

    pub fn top_rank(self) -> usize {
        match self {
            Kind::Airtime => 4294967295,
            Kind::Chance => 65536,
            Kind::Margin => 255,
        }
    }

    /// The label of that rank.
    pub fn ranked(self, rank: usize) -> i64 {
        let rank = rank.min(self.top_rank()) as i64;
        match self {
            Kind::Airtime => rank,
            Kind::Chance => 65536 - rank,
            Kind::Margin => 127 - rank,
        }
    }

    pub fn rank(self, label: i64) -> usize {
        let rank = match self {
            Kind::Airtime => label,
            Kind::Chance => 65536 - label,
            Kind::Margin => 127 - label,
        };
        rank as usize
    }

    /// The label carried over a link of that grade, which may be one that a list of grades holds.
    pub fn carry(self, label: i64, grade: i64) -> i64 {
        match self {
            Kind::Airtime => (label + grade).min(4294967295),
            Kind::Chance => label * grade.min(65536) / 65536,
            Kind::Margin => label.min(grade),
        }
    }

    /// A word that is no grade of this kind.
    pub fn wrong(self, dice: &mut Dice) -> &'static str {
        let any = [
            "x",
            "+1",
            "--1",
            "-",
            "1x",
            "99999999999999999999999",
            "/",
            "1.5",
        ];
        match self {
            Kind::Airtime | Kind::Chance if dice.percent(60) => {
                dice.pick(&["4294967296", "-1", "-0", "18446744073709551616"])
            }
            Kind::Margin if dice.percent(60) => {
                dice.pick(&["128", "-129", "256", "4294967295", "-256"])
            }
            _ => dice.pick(&any),
        }
    }
}
