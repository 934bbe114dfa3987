//! What a line answers when it is not carried out.

use crate::memory::Part;
use std::fmt;

/// A call of the planner refuses. The place is 0 where none is named.
#[derive(Debug, PartialEq)]
pub struct Refusal {
    pub number: u8,
    pub place: usize,
    pub layer: &'static str,
}

/// Why a line cannot be carried out.
#[derive(Debug, PartialEq)]
pub enum Why {
    UnknownCommand,
    NoNet,
    NotANumber {
        place: usize,
        low: i64,
        high: i64,
    },
    NoSlash,
    /// The words are not those that the command takes, which are told.
    Usage(&'static str),
    /// An index at the end of a list or beyond.
    Beyond {
        part: Part,
        count: usize,
    },
    NotAPath(Gap),
    OutOfMemory,
}

/// Why links are no path.
#[derive(Debug, PartialEq)]
pub enum Gap {
    Grades { grades: usize, links: usize },
    NoLink(usize),
    Apart { link: usize, before: usize },
}

#[derive(Debug, PartialEq)]
pub enum Fault {
    Refused(Refusal),
    Error(Why),
}

impl From<Refusal> for Fault {
    fn from(refusal: Refusal) -> Fault {
        Fault::Refused(refusal)
    }
}

impl From<Why> for Fault {
    fn from(why: Why) -> Fault {
        Fault::Error(why)
    }
}

impl From<Gap> for Fault {
    fn from(gap: Gap) -> Fault {
        Fault::Error(Why::NotAPath(gap))
    }
}

impl fmt::Display for Refusal {
    fn fmt(&self, f: &mut fmt::Formatter) -> fmt::Result {
        write!(
            f,
            "refused {} place {} layer {}",
            self.number, self.place, self.layer
        )
    }
}

impl fmt::Display for Why {
    fn fmt(&self, f: &mut fmt::Formatter) -> fmt::Result {
        match self {
            Why::UnknownCommand => write!(f, "unknown command"),
            Why::NoNet => write!(f, "no net yet"),
            Why::NotANumber { place, low, high } => {
                write!(f, "word {place} is not a number from {low} to {high}")
            }
            Why::NoSlash => write!(f, "net needs one / between starts and heads"),
            Why::Usage(usage) => write!(f, "{usage}"),
            Why::Beyond { part, count } => write!(f, "there are {count} {}", part.name()),
            Why::NotAPath(gap) => write!(f, "not a path: {gap}"),
            Why::OutOfMemory => write!(f, "out of memory"),
        }
    }
}

impl fmt::Display for Gap {
    fn fmt(&self, f: &mut fmt::Formatter) -> fmt::Result {
        match self {
            Gap::Grades { grades, links } => write!(f, "{grades} grades for {links} links"),
            Gap::NoLink(link) => write!(f, "link {link} is not in the net"),
            Gap::Apart { link, before } => {
                write!(f, "link {link} does not begin where link {before} ends")
            }
        }
    }
}
