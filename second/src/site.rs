//! The site that a script works on.

use crate::entries::UNLABELLED;
use crate::faults::{Gap, Refusal, Why};
use crate::kinds::Kind;
use crate::lists::{Design, Entered, List};
use crate::net::Net;
use crate::script;
use std::iter;

/// A net and a book with its memory.
pub struct Site {
    pub net: Net,
    pub kind: Kind,
    /// One per link only if the script wrote so many.
    pub grades: Vec<i64>,
    /// One per station unless the script made them more or fewer. So are the entries.
    pub labels: Vec<i64>,
    pub entries: Vec<usize>,
    pub list: List,
    /// None until a start is accepted.
    pub gateway: Option<usize>,
}

impl Site {
    /// A new book of airtimes over the net.
    pub fn new(net: Net) -> Result<Site, Why> {
        let kind = Kind::Airtime;
        let (links, stations) = (net.links(), net.stations());
        Ok(Site {
            net,
            kind,
            grades: many(kind.read(0), links)?,
            labels: many(kind.start(), stations)?,
            entries: many(UNLABELLED, stations)?,
            list: List::first_in(),
            gateway: None,
        })
    }

    /// A new book of that kind over the same net.
    pub fn set_kind(&mut self, kind: Kind) -> Result<(), Why> {
        // First what may fail: an error changes nothing.
        let grades = many(kind.read(0), self.net.links())?;
        let labels = many(kind.start(), self.net.stations())?;
        let entries = many(UNLABELLED, self.net.stations())?;
        self.kind = kind;
        self.grades = grades;
        self.labels = labels;
        self.entries = entries;
        self.list = List::first_in();
        self.gateway = None;
        Ok(())
    }

    /// Another list, empty. The book goes on with it.
    pub fn set_list(&mut self, design: Design) -> Result<(), Refusal> {
        self.list = List::new(self.kind, design)?;
        Ok(())
    }

    /// A station enters the list, and the first so many labels are handed over.
    pub fn enter(&mut self, station: usize, count: Option<usize>) -> Result<Entered, Refusal> {
        self.list.enter(station, handed(&self.labels, count))
    }

    /// The list gives a station, and the first so many labels are handed over.
    pub fn pick(&mut self, count: Option<usize>) -> Option<usize> {
        self.list.pick(handed(&self.labels, count))
    }

    /// The start label carried over the links in their order.
    pub fn path_grade(&self, links: impl Iterator<Item = usize>) -> Result<i64, Gap> {
        if self.grades.len() != self.net.links() {
            return Err(Gap::Grades {
                grades: self.grades.len(),
                links: self.net.links(),
            });
        }
        let mut label = self.kind.start();
        // The link before and its head; the first link may begin anywhere.
        let mut before: Option<(usize, usize)> = None;
        for link in links {
            let (tail, head) = self.net.ends(link).ok_or(Gap::NoLink(link))?;
            if let Some((before, end)) = before {
                if tail != end {
                    return Err(Gap::Apart { link, before });
                }
            }
            label = self.kind.carry(label, self.grades[link]);
            before = Some((link, head));
        }
        Ok(label)
    }
}

fn many<T: Copy>(value: T, count: usize) -> Result<Vec<T>, Why> {
    script::list(iter::repeat(value).take(count))
}

/// The first so many labels, or all.
fn handed(labels: &[i64], count: Option<usize>) -> &[i64] {
    let count = count.unwrap_or(labels.len());
    labels.get(..count).unwrap_or(labels)
}
