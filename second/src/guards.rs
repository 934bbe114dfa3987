//! What the book's calls refuse before they do anything. Each call has its own order of these.

use crate::entries;
use crate::faults::Refusal;
use crate::site::Site;

pub fn refusal(number: u8, place: usize) -> Refusal {
    Refusal {
        number,
        place,
        layer: "book",
    }
}

impl Site {
    pub fn needs_grades(&self) -> Result<(), Refusal> {
        holds(self.grades.len() == self.net.links(), 5)
    }

    pub fn needs_labels_and_entries(&self) -> Result<(), Refusal> {
        let stations = self.net.stations();
        let one_each = self.labels.len() == stations && self.entries.len() == stations;
        holds(one_each, 6)
    }

    pub fn needs_station(&self, station: usize) -> Result<(), Refusal> {
        holds(station < self.net.stations(), 7)
    }

    /// The gateway of the last accepted start.
    pub fn needs_start(&self) -> Result<usize, Refusal> {
        self.gateway.ok_or(refusal(8, 0))
    }

    /// Tail and head of the link.
    pub fn needs_link(&self, link: usize) -> Result<(usize, usize), Refusal> {
        self.net.ends(link).ok_or(refusal(9, 0))
    }

    pub fn needs_label(&self, station: usize) -> Result<(), Refusal> {
        holds(entries::labelled(&self.entries, station), 10)
    }
}

fn holds(lawful: bool, number: u8) -> Result<(), Refusal> {
    if lawful {
        Ok(())
    } else {
        Err(refusal(number, 0))
    }
}
