//! Nets at random, lawful and spoiled.

use super::dice::Dice;

pub const MOST_STATIONS: usize = 1024;
pub const MOST_LINKS: usize = 4096;

/// What the generator knows of the net that a script has opened.
pub struct Net {
    pub starts: Vec<usize>,
    pub heads: Vec<usize>,
}

impl Net {
    pub fn random(dice: &mut Dice, stations: usize, links: usize) -> Net {
        let mut tails: Vec<usize> = (0..links).map(|_| dice.below(stations)).collect();
        tails.sort_unstable();
        let starts = (0..=stations)
            .map(|s| tails.iter().filter(|&&tail| tail < s).count())
            .collect();
        let heads = (0..links)
            .map(|link| {
                if dice.percent(10) {
                    tails[link]
                } else {
                    dice.below(stations)
                }
            })
            .collect();
        Net { starts, heads }
    }

    pub fn small(dice: &mut Dice) -> Net {
        let stations = 1 + dice.below(12);
        let links = if dice.percent(70) {
            dice.below(2 * stations + 7)
        } else {
            dice.below(31)
        };
        Net::random(dice, stations, links)
    }

    /// As large as can be, or some hundred stations with a few links each.
    pub fn large(dice: &mut Dice) -> Net {
        if dice.percent(50) {
            return Net::random(dice, MOST_STATIONS, MOST_LINKS);
        }
        let stations = 100 + dice.below(MOST_STATIONS - 99);
        let links = stations * (2 + dice.below(3));
        Net::random(dice, stations, links.min(MOST_LINKS))
    }

    /// The net with these links, of which those of one tail keep their order, and their grades.
    pub fn of(stations: usize, mut links: Vec<(usize, usize, i64)>) -> (Net, Vec<i64>) {
        links.sort_by_key(|&(tail, _, _)| tail);
        let starts = (0..=stations)
            .map(|station| links.iter().filter(|link| link.0 < station).count())
            .collect();
        let heads = links.iter().map(|link| link.1).collect();
        let grades = links.iter().map(|link| link.2).collect();
        (Net { starts, heads }, grades)
    }

    /// A net that grew from one station, which is given too, and has so many links more.
    pub fn grown(dice: &mut Dice, stations: usize, more: usize) -> (Net, usize) {
        let mut order: Vec<usize> = (0..stations).collect();
        for place in 1..stations {
            order.swap(place, dice.below(place + 1));
        }
        let mut links = Vec::new();
        for place in 1..stations {
            let from = if dice.percent(60) {
                place - 1
            } else {
                dice.below(place)
            };
            links.push((order[from], order[place], 0));
            if dice.percent(50) {
                links.push((order[place], order[from], 0));
            }
        }
        for _ in 0..more {
            let at = dice.below(links.len() + 1);
            links.insert(at, (dice.below(stations), dice.below(stations), 0));
        }
        (Net::of(stations, links).0, order[0])
    }

    pub fn stations(&self) -> usize {
        self.starts.len() - 1
    }

    pub fn links(&self) -> usize {
        self.heads.len()
    }

    pub fn tail(&self, link: usize) -> usize {
        self.starts.partition_point(|&start| start <= link) - 1
    }

    /// The links into a station.
    pub fn links_into(&self, station: usize) -> Vec<usize> {
        (0..self.links())
            .filter(|&link| self.heads[link] == station)
            .collect()
    }

    /// A real walk of at most that many links, from anywhere.
    pub fn walk(&self, dice: &mut Dice, most: usize) -> Vec<usize> {
        let mut walk = Vec::new();
        if self.heads.is_empty() {
            return walk;
        }
        let mut link = dice.below(self.heads.len());
        while walk.len() < most {
            walk.push(link);
            let station = self.heads[link];
            let (first, end) = (self.starts[station], self.starts[station + 1]);
            if first == end {
                break;
            }
            link = first + dice.below(end - first);
        }
        walk
    }

    /// Spoils the net so that it earns one of the refusals 1 to 4, at times several.
    pub fn spoil(&mut self, dice: &mut Dice) {
        match dice.below(8) {
            0 => self.starts.truncate(dice.below(2)),
            1 => self.starts[0] = 1 + dice.below(3),
            2 => {
                let place = dice.below(self.starts.len());
                self.starts[place] = dice.pick(&[0, 1, self.heads.len() + 1, 31, 4097, 65535]);
            }
            3 => {
                let (one, other) = (dice.below(self.starts.len()), dice.below(self.starts.len()));
                self.starts.swap(one, other);
            }
            4 => self.heads.push(0),
            5 => {
                self.heads.pop();
            }
            6 => self.spoil_heads(dice),
            _ => {
                self.starts.reverse();
                self.heads.push(self.stations());
            }
        }
    }

    /// Some heads become numbers of no station.
    pub fn spoil_heads(&mut self, dice: &mut Dice) {
        for _ in 0..1 + dice.below(3) {
            let place = dice.below(self.heads.len());
            let head = self.stations() + dice.pick(&[0, 0, 1, 1000]);
            if let Some(old) = self.heads.get_mut(place) {
                *old = head;
            }
        }
    }

    pub fn words(&self) -> Vec<String> {
        let mut words = vec!["net".to_string()];
        words.extend(self.starts.iter().map(usize::to_string));
        words.push("/".to_string());
        words.extend(self.heads.iter().map(usize::to_string));
        words
    }
}
