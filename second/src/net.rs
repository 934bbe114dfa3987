//! The net: stations and their links as a forward star.

use crate::faults::Refusal;
use std::ops::Range;

pub const MOST_STATIONS: usize = 1024;
pub const MOST_LINKS: usize = 4096;

/// Links from `starts[s]` to just before `starts[s + 1]` have station s as their tail.
pub struct Net {
    starts: Vec<usize>,
    heads: Vec<usize>,
}

impl Net {
    pub fn new(starts: Vec<usize>, heads: Vec<usize>) -> Result<Net, Refusal> {
        let refuse = |number, place| {
            Err(Refusal {
                number,
                place,
                layer: "net",
            })
        };
        let (first, last) = match (starts.first(), starts.last()) {
            (Some(&first), Some(&last)) => (first, last),
            _ => return refuse(1, 0),
        };
        let stations = starts.len() - 1;
        if !(1..=MOST_STATIONS).contains(&stations) {
            return refuse(1, 0);
        }
        if heads.len() > MOST_LINKS {
            return refuse(2, 0);
        }
        let falling = starts.windows(2).any(|pair| pair[1] < pair[0]);
        if first != 0 || falling || last != heads.len() {
            return refuse(3, 0);
        }
        if let Some(link) = heads.iter().position(|&head| head >= stations) {
            return refuse(4, link);
        }
        Ok(Net { starts, heads })
    }

    pub fn stations(&self) -> usize {
        self.starts.len() - 1
    }

    pub fn links(&self) -> usize {
        self.heads.len()
    }

    /// The links with that station as their tail.
    pub fn links_of(&self, station: usize) -> Range<usize> {
        self.starts[station]..self.starts[station + 1]
    }

    pub fn head(&self, link: usize) -> usize {
        self.heads[link]
    }

    /// Tail and head of a link, or none if there is no such link.
    pub fn ends(&self, link: usize) -> Option<(usize, usize)> {
        let head = *self.heads.get(link)?;
        // The first start is 0, so at least one start is not above the link. Of stations that
        // share a start, only the last has links.
        let tail = self.starts.partition_point(|&start| start <= link) - 1;
        Some((tail, head))
    }
}

#[cfg(test)]
mod tests {
    use super::*;

    fn refusal(starts: &[usize], heads: &[usize]) -> Option<(u8, usize)> {
        let made = Net::new(starts.to_vec(), heads.to_vec());
        made.err().map(|refusal| (refusal.number, refusal.place))
    }

    #[test]
    fn refusal_1_stations() {
        assert_eq!(refusal(&[], &[]), Some((1, 0)));
        assert_eq!(refusal(&[0], &[]), Some((1, 0)));
        assert_eq!(refusal(&[0; 2], &[]), None);
        assert_eq!(refusal(&[0; 1025], &[]), None);
        assert_eq!(refusal(&[0; 1026], &[]), Some((1, 0)));
    }

    #[test]
    fn refusal_2_links() {
        assert_eq!(refusal(&[0, 4096], &[0; 4096]), None);
        assert_eq!(refusal(&[0, 4097], &[0; 4097]), Some((2, 0)));
    }

    #[test]
    fn refusal_3_starts() {
        assert_eq!(refusal(&[1, 1], &[0]), Some((3, 0)));
        assert_eq!(refusal(&[0, 2, 1], &[0]), Some((3, 0)));
        assert_eq!(refusal(&[0, 0], &[0]), Some((3, 0)));
        assert_eq!(refusal(&[0, 2], &[0]), Some((3, 0)));
    }

    #[test]
    fn refusal_4_heads() {
        assert_eq!(refusal(&[0, 1, 3], &[0, 2, 9]), Some((4, 1)));
        assert_eq!(refusal(&[0, 1, 3], &[1, 1, 0]), None);
    }

    #[test]
    fn refusals_in_their_order() {
        assert_eq!(refusal(&[7], &[9; 4097]), Some((1, 0)));
        assert_eq!(refusal(&[7, 6], &[9; 4097]), Some((2, 0)));
        assert_eq!(refusal(&[7, 6], &[9]), Some((3, 0)));
    }

    #[test]
    fn tails_pass_over_stations_without_links() {
        let net = match Net::new(vec![0, 0, 2, 2, 3, 3], vec![4, 1, 0]) {
            Ok(net) => net,
            Err(_) => panic!("a lawful net"),
        };
        assert_eq!((net.stations(), net.links()), (5, 3));
        assert_eq!(net.ends(0), Some((1, 4)));
        assert_eq!(net.ends(1), Some((1, 1)));
        assert_eq!(net.ends(2), Some((3, 0)));
        assert_eq!(net.ends(3), None);
        assert_eq!((net.links_of(0), net.links_of(1)), (0..0, 0..2));
        assert_eq!((net.links_of(3), net.head(2)), (2..3, 0));
    }
}
