//! Entry links: the link by which a station got its label, and the walk back along them.

use crate::net::Net;
use std::iter;

/// The entry of a station without a label.
pub const UNLABELLED: usize = 65_535;
/// The entry of the gateway itself. It is no link of any net.
pub const OWN: usize = 65_534;

/// Whether a station has a label. A station beyond the entries has none.
pub fn labelled(entries: &[usize], station: usize) -> bool {
    entries
        .get(station)
        .map_or(false, |&entry| entry != UNLABELLED)
}

/// The links that the walk back from a station takes, each with its tail. The entries may hold
/// anything, so the walk may go round; it takes at most as many links as there are stations.
pub fn walk<'a>(
    net: &'a Net,
    entries: &'a [usize],
    station: usize,
) -> impl Iterator<Item = (usize, usize)> + 'a {
    let back = move |station: usize| {
        let link = *entries.get(station)?;
        let (tail, head) = net.ends(link)?;
        (head == station).then_some((link, tail))
    };
    iter::successors(back(station), move |&(_, tail)| back(tail)).take(net.stations())
}

#[cfg(test)]
mod tests {
    use super::*;

    /// Links: 0 from 0 to 1, 1 from 0 to 2, 2 from 1 to 3, 3 from 2 to 1, 4 from 2 to 3.
    fn estate() -> Net {
        Net::new(vec![0, 2, 3, 5, 5], vec![1, 2, 3, 1, 3]).expect("a lawful net")
    }

    fn walked(entries: &[usize], station: usize) -> Vec<(usize, usize)> {
        walk(&estate(), entries, station).collect()
    }

    #[test]
    fn entries_lead_back_to_the_gateway() {
        let entries = [OWN, 3, 1, 2];
        assert_eq!(walked(&entries, 3), [(2, 1), (3, 2), (1, 0)]);
        assert_eq!(walked(&entries, 2), [(1, 0)]);
        assert_eq!(walked(&entries, 0), []);
    }

    #[test]
    fn a_walk_stops_at_an_entry_that_is_no_link_into_its_station() {
        assert_eq!(walked(&[OWN, 1, 1, 2], 3), [(2, 1)]);
        assert_eq!(walked(&[OWN, UNLABELLED, 1, 2], 3), [(2, 1)]);
        assert_eq!(walked(&[OWN, OWN, 1, 2], 3), [(2, 1)]);
        assert_eq!(walked(&[OWN, 3, 1, 5], 3), []);
        assert_eq!(walked(&[OWN, 3, 1], 3), []);
    }

    #[test]
    fn a_walk_round_takes_as_many_links_as_there_are_stations() {
        let net = Net::new(vec![0, 1, 2, 3], vec![1, 0, 0]).expect("a lawful net");
        let walked: Vec<_> = walk(&net, &[1, 0, OWN], 1).collect();
        assert_eq!(walked, [(0, 0), (1, 1), (0, 0)]);
    }

    #[test]
    fn every_other_entry_is_a_label() {
        let entries = [OWN, UNLABELLED, 0, 65_533];
        let labelled = |station| labelled(&entries, station);
        assert!(labelled(0) && labelled(2) && labelled(3));
        assert!(!labelled(1) && !labelled(4));
    }
}
