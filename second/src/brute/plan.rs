//! Trees of best paths as docs/MODEL.md defines them, and the faults of a plan in their order.

use super::grading::Grading;
use super::paths::Links;
use super::{OWN, UNLABELLED};

/// A small net with all its simple paths, and a plan over it.
pub struct Plan<'a> {
    pub links: &'a Links,
    pub paths: &'a [Vec<Vec<usize>>],
    pub grading: Grading,
    pub grades: &'a [i64],
    pub labels: &'a [i64],
    pub entries: &'a [usize],
}

impl Plan<'_> {
    /// The paths from the gateway to a station that come to no station twice. No other path is
    /// better than all of these: what lies between two visits cannot improve a label.
    fn ways(&self, gateway: usize, station: usize) -> Vec<&[usize]> {
        let mut ways: Vec<&[usize]> = Vec::new();
        if station == gateway {
            ways.push(&[]);
        }
        for path in &self.paths[gateway] {
            if path.last().map(|&link| self.links.ends[link].1) == Some(station) {
                ways.push(path);
            }
        }
        ways
    }

    fn grade(&self, way: &[usize]) -> i64 {
        self.grading
            .along(way.iter().map(|&link| self.grades[link]))
    }

    /// The best grade over all paths from the gateway, if there is a path.
    pub fn best(&self, gateway: usize, station: usize) -> Option<i64> {
        let mut best = None;
        for way in self.ways(gateway, station) {
            let grade = self.grade(way);
            if best.map_or(true, |best| self.grading.beats(grade, best)) {
                best = Some(grade);
            }
        }
        best
    }

    /// The way from the gateway to a station whose links are all entries of their heads.
    pub fn entered(&self, gateway: usize, station: usize) -> Option<&[usize]> {
        let by_entries = |way: &&[usize]| {
            way.iter()
                .all(|&link| self.entries[self.links.ends[link].1] == link)
        };
        self.ways(gateway, station).into_iter().find(by_entries)
    }

    pub fn labelled(&self, station: usize) -> bool {
        self.entries[station] != UNLABELLED
    }

    /// The number of the size that is wrong, if one is.
    fn wrong_size(&self, gateway: usize) -> Option<u8> {
        let stations = self.links.stations;
        if self.grades.len() != self.links.ends.len() {
            Some(5)
        } else if self.labels.len() != stations || self.entries.len() != stations {
            Some(6)
        } else if gateway >= stations {
            Some(7)
        } else {
            None
        }
    }

    pub fn is_tree_of_best_paths(&self, gateway: usize) -> bool {
        self.wrong_size(gateway).is_none()
            && self.entries[gateway] == OWN
            && (0..self.links.stations).all(|station| match self.best(gateway, station) {
                Some(best) => {
                    let way = self.entered(gateway, station);
                    self.labelled(station)
                        && self.labels[station] == best
                        && way.map(|way| self.grade(way)) == Some(best)
                }
                None => !self.labelled(station),
            })
    }

    /// Number and place of the first fault.
    pub fn first_fault(&self, gateway: usize) -> Option<(u8, usize)> {
        if let Some(number) = self.wrong_size(gateway) {
            return Some((number, 0));
        }
        if (self.labels[gateway], self.entries[gateway]) != (self.grading.start(), OWN) {
            return Some((16, 0));
        }
        let labelled = || (0..self.links.stations).filter(|&station| self.labelled(station));
        let entry_fault = labelled().find(|&station| {
            // Of all links those that may be the entry of the station.
            let right = self.links.ends.iter().zip(self.grades).enumerate();
            let mut right = right.filter(|&(_, (&(tail, head), &grade))| {
                head == station
                    && self.labelled(tail)
                    && self.labels[station] == self.grading.over(self.labels[tail], grade)
            });
            station != gateway && !right.any(|(link, _)| link == self.entries[station])
        });
        if let Some(station) = entry_fault {
            return Some((17, station));
        }
        let walk_fault = labelled().find(|&station| self.entered(gateway, station).is_none());
        if let Some(station) = walk_fault {
            return Some((18, station));
        }
        for (link, (&(tail, head), &grade)) in self.links.ends.iter().zip(self.grades).enumerate() {
            if self.labelled(tail) {
                let brought = self.grading.over(self.labels[tail], grade);
                if !self.labelled(head) || self.grading.beats(brought, self.labels[head]) {
                    return Some((19, link));
                }
            }
        }
        None
    }

    /// Whether the walk back from a station, entry by entry, goes over a link.
    pub fn runs_over(&self, station: usize, link: usize) -> bool {
        let mut at = station;
        for _ in 0..self.links.stations {
            let entry = self.entries[at];
            match self.links.ends.get(entry) {
                Some(&(_, head)) if head == at && entry == link => return true,
                Some(&(tail, head)) if head == at => at = tail,
                _ => return false,
            }
        }
        false
    }
}
