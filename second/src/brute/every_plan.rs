//! The check on every plan there is, of very small nets: all labels worth a look, and all entries.

use super::grading::{Grading, GRADINGS};
use super::paths::Links;
use super::plan::Plan;
use super::{OWN, UNLABELLED};
use crate::kinds::Kind;
use crate::net::Net;
use crate::site::Site;
use std::collections::{BTreeMap, BTreeSet};
use std::ops::Range;

/// How often there was each answer, by its number.
type Told = BTreeMap<Option<u8>, usize>;

/// A very small net with its simple paths, and a site of the second planner over it.
struct Case {
    grading: Grading,
    links: Links,
    paths: Vec<Vec<Vec<usize>>>,
    site: Site,
}

impl Case {
    fn new(grading: Grading, starts: &[usize], heads: &[usize], grades: &[i64]) -> Case {
        let links = Links::of(starts, heads);
        let paths = links.simple_paths().expect("a small net");
        let kind = Kind::named(grading.name().as_bytes()).expect("a kind");
        let net = Net::new(starts.to_vec(), heads.to_vec());
        let mut site = Site::new(net.expect("a lawful net")).expect("memory");
        site.set_kind(kind).expect("memory");
        site.grades = grades.to_vec();
        Case {
            grading,
            links,
            paths,
            site,
        }
    }

    /// All that a station may have: the grades of all paths and the start label, each with every
    /// link, a link that is not there, and the entries that are no link.
    fn pairs(&self) -> Vec<(i64, usize)> {
        let grade = |&link: &usize| self.site.grades[link];
        let along = |path: &Vec<usize>| self.grading.along(path.iter().map(grade));
        let mut labels: BTreeSet<i64> = self.paths.iter().flatten().map(along).collect();
        labels.insert(self.grading.start());
        let entries = (0..=self.links.ends.len()).chain([OWN, UNLABELLED]);
        entries
            .flat_map(|entry| labels.iter().map(move |&label| (label, entry)))
            .collect()
    }

    /// Every plan, from every gateway.
    fn every_plan(&mut self, told: &mut Told) {
        let pairs = vec![self.pairs(); self.links.stations];
        self.each(&pairs, 0..self.links.stations, told);
    }

    /// Every plan where the gateway has what it should have.
    fn every_rooted_plan(&mut self, told: &mut Told) {
        for gateway in 0..self.links.stations {
            let mut pairs = vec![self.pairs(); self.links.stations];
            pairs[gateway] = vec![(self.grading.start(), OWN)];
            self.each(&pairs, gateway..gateway + 1, told);
        }
    }

    /// Of each station one pair of its own, in all ways.
    fn each(&mut self, pairs: &[Vec<(i64, usize)>], gateways: Range<usize>, told: &mut Told) {
        let mut chosen = vec![0; pairs.len()];
        loop {
            let plan = || {
                pairs
                    .iter()
                    .zip(&chosen)
                    .map(|(pairs, &place)| pairs[place])
            };
            self.site.labels = plan().map(|(label, _)| label).collect();
            self.site.entries = plan().map(|(_, entry)| entry).collect();
            for gateway in gateways.clone() {
                *told.entry(self.judge(gateway)).or_insert(0) += 1;
            }
            // The next row of places, as if they were digits.
            let more = chosen
                .iter()
                .zip(pairs)
                .position(|(&place, pairs)| place + 1 < pairs.len());
            match more {
                Some(station) => {
                    chosen[station] += 1;
                    chosen[..station].fill(0);
                }
                None => return,
            }
        }
    }

    /// The number that the check tells, which is the right one.
    fn judge(&self, gateway: usize) -> Option<u8> {
        let plan = Plan {
            links: &self.links,
            paths: &self.paths,
            grading: self.grading,
            grades: &self.site.grades,
            labels: &self.site.labels,
            entries: &self.site.entries,
        };
        let answer = self.site.check(gateway).err();
        let fault = answer.map(|refusal| (refusal.number, refusal.place));
        let tree = plan.is_tree_of_best_paths(gateway);
        assert!(
            fault == plan.first_fault(gateway) && fault.is_none() == tree,
            "{fault:?} {:?} {:?} gateway {gateway} grades {:?} labels {:?} entries {:?}",
            self.grading,
            self.links.ends,
            plan.grades,
            plan.labels,
            plan.entries
        );
        fault.map(|(number, _)| number)
    }
}

#[test]
fn the_check_accepts_the_trees_of_best_paths_and_no_other_plan() {
    let mut told = Told::new();
    for grading in GRADINGS {
        // A good grade, a bad one, and one over which no label changes.
        let (good, bad, even) = match grading {
            Grading::Airtime => (1, 3, 0),
            Grading::Chance => (50_000, 20_000, 65_536),
            Grading::Margin => (9, -9, 127),
        };
        let mut every = |starts: &[usize], heads: &[usize], grades: &[i64]| {
            Case::new(grading, starts, heads, grades).every_plan(&mut told);
        };
        // One station, without a link and with one to itself.
        every(&[0, 0], &[], &[]);
        every(&[0, 1], &[0], &[even]);
        // Two stations: two links there and one back, and links to themselves.
        every(&[0, 2, 3], &[1, 1, 0], &[bad, good, even]);
        every(&[0, 2, 4], &[0, 1, 0, 1], &[even, good, good, even]);
        // Three stations in a ring.
        every(&[0, 1, 2, 3], &[1, 2, 0], &[good, even, even]);
        let mut rooted = |starts: &[usize], heads: &[usize], grades: &[i64]| {
            Case::new(grading, starts, heads, grades).every_rooted_plan(&mut told);
        };
        // A ring apart over which labels stay, a ring that can be left, and a way round.
        rooted(&[0, 0, 1, 2], &[2, 1], &[even, even]);
        rooted(&[0, 1, 2, 4], &[1, 2, 1, 2], &[good, even, even, even]);
        rooted(&[0, 2, 4, 4], &[1, 2, 2, 0], &[good, bad, good, even]);
        // Two ways to the same station, and a station that no path reaches.
        rooted(&[0, 2, 3, 4, 4], &[1, 2, 3, 3], &[even, even, good, good]);
        rooted(&[0, 1, 2, 2, 3], &[1, 0, 2], &[bad, even, good]);
    }
    let numbers: Vec<_> = told.keys().copied().collect();
    assert_eq!(numbers, [None, Some(16), Some(17), Some(18), Some(19)]);
    assert!(told.values().all(|&count| count > 50), "{told:?}");
}
