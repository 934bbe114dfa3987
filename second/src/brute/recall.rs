//! What is known of a site by the lines and answers so far. A part that a call may have changed
//! is not known until it is shown.

use super::grading::Grading;
use super::paths::Links;
use super::plan::Plan;
use super::waiting::{Rule, Waiting};
use super::{OWN, UNLABELLED};
use std::collections::BTreeSet;

pub struct Recall {
    pub links: Links,
    /// None if they are too many.
    pub paths: Option<Vec<Vec<Vec<usize>>>>,
    pub grading: Grading,
    pub grades: Vec<i64>,
    pub labels: Option<Vec<i64>>,
    pub entries: Option<Vec<usize>>,
    /// Who waits, and in which order.
    pub set: Option<BTreeSet<usize>>,
    pub order: Option<Waiting>,
    pub rule: Rule,
    /// The gateway of the last accepted start.
    pub gateway: Option<usize>,
    /// Nothing but calls has written since that start.
    pub clean: bool,
    /// Since the last accepted start or regrade.
    pub picks: usize,
}

impl Recall {
    pub fn new(links: Links, paths: Option<Vec<Vec<Vec<usize>>>>, grading: Grading) -> Recall {
        let (stations, count) = (links.stations, links.ends.len());
        Recall {
            links,
            paths,
            grading,
            grades: vec![0; count],
            labels: Some(vec![grading.start(); stations]),
            entries: Some(vec![UNLABELLED; stations]),
            set: Some(BTreeSet::new()),
            order: Some(Waiting::new(grading, Rule::FirstIn)),
            rule: Rule::FirstIn,
            gateway: None,
            clean: false,
            picks: 0,
        }
    }

    pub fn new_list(&mut self, rule: Rule) {
        self.rule = rule;
        self.set = Some(BTreeSet::new());
        self.order = Some(Waiting::new(self.grading, rule));
        self.clean = false;
    }

    /// The plan, if labels, entries and all simple paths are known.
    pub fn plan(&self) -> Option<Plan<'_>> {
        Some(Plan {
            links: &self.links,
            paths: self.paths.as_ref()?,
            grading: self.grading,
            grades: &self.grades,
            labels: self.labels.as_ref()?,
            entries: self.entries.as_ref()?,
        })
    }

    /// No station waits, for sure.
    pub fn rests(&self) -> bool {
        self.set.as_ref().map_or(false, BTreeSet::is_empty)
    }

    pub fn started(&mut self, gateway: usize) {
        let stations = self.links.stations;
        let labels = vec![self.grading.start(); stations];
        let mut entries = vec![UNLABELLED; stations];
        entries[gateway] = OWN;
        let mut order = Waiting::new(self.grading, self.rule);
        order.enter(gateway, &labels);
        self.labels = Some(labels);
        self.entries = Some(entries);
        self.set = Some(BTreeSet::from([gateway]));
        self.order = Some(order);
        self.gateway = Some(gateway);
        self.clean = true;
        self.picks = 0;
    }

    /// Work that picked, after which so many stations wait.
    pub fn worked(&mut self, picks: usize, waiting: usize) {
        self.picks += picks;
        if picks > 0 {
            self.labels = None;
            self.entries = None;
            self.set = None;
            self.order = None;
        }
        if waiting == 0 {
            self.set = Some(BTreeSet::new());
        }
    }

    /// The most picks since an accepted start or regrade.
    pub fn most_picks(&self) -> Option<usize> {
        let paths: usize = self.paths.as_ref()?.iter().map(Vec::len).sum();
        Some(self.links.stations + paths)
    }
}
