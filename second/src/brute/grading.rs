//! The kinds of grade, once more.

#[derive(Clone, Copy, Debug, PartialEq)]
pub enum Grading {
    Airtime,
    Chance,
    Margin,
}

pub const GRADINGS: [Grading; 3] = [Grading::Airtime, Grading::Chance, Grading::Margin];

impl Grading {
    pub fn name(self) -> &'static str {
        match self {
            Grading::Airtime => "airtime",
            Grading::Chance => "chance",
            Grading::Margin => "margin",
        }
    }

    /// The label at the beginning of every way, which is also the best one.
    pub fn start(self) -> i64 {
        match self {
            Grading::Airtime => 0,
            Grading::Chance => 1 << 16,
            Grading::Margin => 127,
        }
    }

    /// What a number in a list of grades stands for.
    pub fn read(self, number: i64) -> i64 {
        if self == Grading::Chance && number > 1 << 16 {
            1 << 16
        } else {
            number
        }
    }

    /// A label after one link more.
    pub fn over(self, label: i64, grade: i64) -> i64 {
        const CAP: i64 = (1 << 32) - 1;
        match self {
            Grading::Airtime if label > CAP - grade => CAP,
            Grading::Airtime => label + grade,
            Grading::Chance => (label * grade) >> 16,
            Grading::Margin if grade < label => grade,
            Grading::Margin => label,
        }
    }

    /// How far a label is from the start label. The less, the better.
    pub fn rank(self, label: i64) -> i64 {
        (label - self.start()).abs()
    }

    /// Whether one label is strictly better than another.
    pub fn beats(self, one: i64, other: i64) -> bool {
        self.rank(one) < self.rank(other)
    }

    /// The grade of a path of links with these grades.
    pub fn along(self, grades: impl Iterator<Item = i64>) -> i64 {
        grades.fold(self.start(), |label, grade| self.over(label, grade))
    }
}
