//! Memory that a script reads, or writes from outside the calls.

use crate::entries::UNLABELLED;
use crate::faults::Why;
use crate::site::Site;

/// A list of the book's memory.
#[derive(Clone, Copy, Debug, PartialEq)]
pub enum Part {
    Labels,
    Entries,
    Grades,
}

impl Part {
    /// The part by the name of one of its numbers.
    pub fn of_one(name: &[u8]) -> Option<Part> {
        match name {
            b"label" => Some(Part::Labels),
            b"entry" => Some(Part::Entries),
            b"grade" => Some(Part::Grades),
            _ => None,
        }
    }

    pub fn named(name: &[u8]) -> Option<Part> {
        [Part::Labels, Part::Entries, Part::Grades]
            .into_iter()
            .find(|part| part.name().as_bytes() == name)
    }

    pub fn name(self) -> &'static str {
        match self {
            Part::Labels => "labels",
            Part::Entries => "entries",
            Part::Grades => "grades",
        }
    }
}

impl Site {
    /// Overwrites one number, which is one that the part may hold.
    pub fn poke(&mut self, part: Part, index: usize, value: i64) -> Result<(), Why> {
        match part {
            Part::Labels => put(&mut self.labels, part, index, value),
            Part::Entries => put(&mut self.entries, part, index, value as usize),
            Part::Grades => put(&mut self.grades, part, index, value),
        }
    }

    /// Cuts a list, or fills it up as a new book has it.
    pub fn resize(&mut self, part: Part, count: usize) -> Result<(), Why> {
        match part {
            Part::Labels => stretch(&mut self.labels, count, self.kind.start()),
            Part::Entries => stretch(&mut self.entries, count, UNLABELLED),
            Part::Grades => stretch(&mut self.grades, count, self.kind.read(0)),
        }
    }
}

fn put<T>(list: &mut [T], part: Part, index: usize, value: T) -> Result<(), Why> {
    let count = list.len();
    *list.get_mut(index).ok_or(Why::Beyond { part, count })? = value;
    Ok(())
}

fn stretch<T: Clone>(list: &mut Vec<T>, count: usize, filling: T) -> Result<(), Why> {
    list.try_reserve(count.saturating_sub(list.len()))
        .map_err(|_| Why::OutOfMemory)?;
    list.resize(count, filling);
    Ok(())
}
