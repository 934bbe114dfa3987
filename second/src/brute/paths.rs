//! A net as the list of its links, and all its simple paths.

/// More simple paths than these are not gone through.
const MOST: usize = 3000;

pub struct Links {
    pub stations: usize,
    /// Tail and head of each.
    pub ends: Vec<(usize, usize)>,
}

impl Links {
    /// The links of a lawful net.
    pub fn of(starts: &[usize], heads: &[usize]) -> Links {
        let mut ends = Vec::new();
        for station in 0..starts.len() - 1 {
            for &head in &heads[starts[station]..starts[station + 1]] {
                ends.push((station, head));
            }
        }
        Links {
            stations: starts.len() - 1,
            ends,
        }
    }

    /// The simple paths from each station, none without a link. None if they are too many.
    pub fn simple_paths(&self) -> Option<Vec<Vec<Vec<usize>>>> {
        let mut all = Vec::new();
        let mut count = 0;
        for begin in 0..self.stations {
            // Each path that was found is tried with every link more.
            let mut found: Vec<Vec<usize>> = vec![Vec::new()];
            let mut next = 0;
            while next < found.len() {
                let path = found[next].clone();
                next += 1;
                let mut met = vec![begin];
                met.extend(path.iter().map(|&link| self.ends[link].1));
                let end = met[met.len() - 1];
                for (link, &(tail, head)) in self.ends.iter().enumerate() {
                    if tail == end && !met.contains(&head) {
                        found.push([&path[..], &[link]].concat());
                    }
                }
                if count + found.len() > MOST {
                    return None;
                }
            }
            found.remove(0);
            count += found.len();
            all.push(found);
        }
        Some(all)
    }
}
