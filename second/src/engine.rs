//! The calls that improve labels: work and regrade.

use crate::entries::{self, UNLABELLED};
use crate::faults::Refusal;
use crate::lists::Entered;
use crate::site::Site;

/// What work did: stations picked, and stations still waiting.
#[derive(Debug, PartialEq)]
pub struct Worked {
    pub picks: usize,
    pub waiting: usize,
}

/// What regrade did: stations that lost their label, and stations new to the list.
#[derive(Debug, PartialEq)]
pub struct Regraded {
    pub lost: usize,
    pub new: usize,
}

impl Site {
    /// Picks until the allowance is spent or no station waits.
    pub fn work(&mut self, allowed: usize) -> Result<Worked, Refusal> {
        self.needs_grades()?;
        self.needs_labels_and_entries()?;
        let gateway = self.needs_start()?;
        let mut picks = 0;
        while picks < allowed {
            let station = match self.list.pick(&self.labels) {
                Some(station) => station,
                None => break,
            };
            picks += 1;
            // Stations beyond the net may wait too, entered by hand; they have no label.
            if entries::labelled(&self.entries, station) {
                self.scan(station, gateway)?;
            }
        }
        Ok(Worked {
            picks,
            waiting: self.list.waiting(),
        })
    }

    /// Carries a station's label over its links, and hands it on where it is an improvement.
    fn scan(&mut self, station: usize, gateway: usize) -> Result<(), Refusal> {
        for link in self.net.links_of(station) {
            let head = self.net.head(link);
            if head == gateway {
                continue;
            }
            let carried = self.kind.carry(self.labels[station], self.grades[link]);
            let improves = self.kind.better(carried, self.labels[head]);
            if improves || !entries::labelled(&self.entries, head) {
                self.labels[head] = carried;
                self.entries[head] = link;
                // After the writing: the list goes by the new label.
                self.list.enter(head, &self.labels)?;
            }
        }
        Ok(())
    }

    /// Gives a link another grade, and lets wait whom it concerns.
    pub fn regrade(&mut self, link: usize, grade: i64) -> Result<Regraded, Refusal> {
        let grade = self.kind.make(grade)?;
        self.needs_grades()?;
        self.needs_labels_and_entries()?;
        self.needs_start()?;
        let (tail, head) = self.needs_link(link)?;
        self.grades[link] = grade;
        // By the number that stands for the tail's label, even where the tail has none.
        let carried = self.kind.carry(self.labels[tail], grade);
        let worse = self.kind.better(self.labels[head], carried);
        if self.entries[head] == link && worse {
            let lost = self.behind(link);
            for &station in &lost {
                self.labels[station] = self.kind.start();
                self.entries[station] = UNLABELLED;
            }
            let new = self.enter_all(self.ahead_of(&lost))?;
            return Ok(Regraded {
                lost: lost.len(),
                new,
            });
        }
        let tail = Some(tail).filter(|&tail| entries::labelled(&self.entries, tail));
        let new = self.enter_all(tail)?;
        Ok(Regraded { lost: 0, new })
    }

    /// The stations whose walk back meets the link.
    fn behind(&self, link: usize) -> Vec<usize> {
        let meets = |&station: &usize| {
            entries::walk(&self.net, &self.entries, station).any(|(met, _)| met == link)
        };
        (0..self.net.stations()).filter(meets).collect()
    }

    /// The labelled stations with a link to one of these, in rising number.
    fn ahead_of(&self, lost: &[usize]) -> Vec<usize> {
        let mut is_lost = vec![false; self.net.stations()];
        for &station in lost {
            is_lost[station] = true;
        }
        let leads = |station: usize| {
            let mut links = self.net.links_of(station);
            links.any(|link| is_lost[self.net.head(link)])
        };
        (0..self.net.stations())
            .filter(|&station| entries::labelled(&self.entries, station) && leads(station))
            .collect()
    }

    /// Enters these, and counts the new ones.
    fn enter_all(&mut self, stations: impl IntoIterator<Item = usize>) -> Result<usize, Refusal> {
        let mut new = 0;
        for station in stations {
            if self.list.enter(station, &self.labels)? == Entered::New {
                new += 1;
            }
        }
        Ok(new)
    }
}
