//! The calls that begin a plan and read it: start, ask, route.

use crate::entries::{self, OWN, UNLABELLED};
use crate::faults::Refusal;
use crate::guards::refusal;
use crate::site::Site;

/// What ask tells of a station.
pub struct Told {
    /// Label and entry; none if the station is unlabelled.
    pub reached: Option<(i64, usize)>,
    pub waiting: usize,
}

impl Site {
    /// Begins anew: the gateway alone is labelled, and alone waits.
    pub fn start(&mut self, gateway: usize) -> Result<(), Refusal> {
        self.needs_grades()?;
        self.needs_labels_and_entries()?;
        self.needs_station(gateway)?;
        self.labels.fill(self.kind.start());
        self.entries.fill(UNLABELLED);
        self.entries[gateway] = OWN;
        self.list.empty();
        self.list.enter(gateway, &self.labels)?;
        self.gateway = Some(gateway);
        Ok(())
    }

    pub fn ask(&self, station: usize) -> Result<Told, Refusal> {
        self.needs_labels_and_entries()?;
        self.needs_start()?;
        self.needs_station(station)?;
        let reached = entries::labelled(&self.entries, station)
            .then(|| (self.labels[station], self.entries[station]));
        Ok(Told {
            reached,
            waiting: self.list.waiting(),
        })
    }

    /// The links from the gateway to a station, if there is room for so many.
    pub fn route(&self, station: usize, places: usize) -> Result<Vec<usize>, Refusal> {
        self.needs_labels_and_entries()?;
        let gateway = self.needs_start()?;
        self.needs_station(station)?;
        self.needs_label(station)?;
        let (mut links, tails): (Vec<usize>, Vec<usize>) =
            entries::walk(&self.net, &self.entries, station).unzip();
        let end = tails.last().copied().unwrap_or(station);
        // A walk that is only cut off does not pass here: it ends at a station with a link.
        if end != gateway || self.entries[end] != OWN {
            return Err(refusal(11, 0));
        }
        if links.len() > places {
            return Err(refusal(12, links.len()));
        }
        links.reverse();
        Ok(links)
    }
}
