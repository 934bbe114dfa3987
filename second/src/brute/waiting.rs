//! Candidate lists as a set of stations, each with its place. A station is picked by the least
//! place; no queue is kept.

use super::grading::Grading;
use std::collections::{BTreeMap, BTreeSet};

#[derive(Clone, Copy, Debug, PartialEq)]
pub enum Rule {
    FirstIn,
    TwoEnded,
    SmallLabel,
    Threshold { step: i64 },
    Bucket { width: i64, span: i64 },
}

pub struct Waiting {
    rule: Rule,
    grading: Grading,
    /// Of each station its queue or bucket, and its place there: the time of its entering, or
    /// that below 0 if it went to the top.
    places: BTreeMap<usize, (i64, i64)>,
    time: i64,
    entered: BTreeSet<usize>,
    threshold: i64,
    last: i64,
}

impl Waiting {
    pub fn new(grading: Grading, rule: Rule) -> Waiting {
        Waiting {
            rule,
            grading,
            places: BTreeMap::new(),
            time: 0,
            entered: BTreeSet::new(),
            threshold: grading.start(),
            last: 0,
        }
    }

    /// A station enters, which may wait before.
    pub fn enter(&mut self, station: usize, labels: &[i64]) {
        self.time += 1;
        let label = labels.get(station).copied();
        let old = self.places.get(&station).copied();
        let bucket = self.bucket(label);
        // Only buckets move a station that waits.
        if old.map_or(false, |(queue, _)| {
            queue == bucket || self.buckets().is_none()
        }) {
            return;
        }
        let top = match self.rule {
            Rule::TwoEnded => self.entered.contains(&station),
            Rule::SmallLabel => {
                let top = self.first(0).and_then(|top| labels.get(top).copied());
                matches!((label, top), (Some(own), Some(top)) if !self.grading.beats(top, own))
            }
            _ => false,
        };
        let queue = match (self.rule, label) {
            (Rule::Threshold { .. }, Some(label)) => {
                i64::from(self.grading.beats(self.threshold, label))
            }
            _ => bucket,
        };
        let place = if top { -self.time } else { self.time };
        self.places.insert(station, (queue, place));
        self.entered.insert(station);
    }

    pub fn pick(&mut self, labels: &[i64]) -> Option<usize> {
        if matches!(self.rule, Rule::Threshold { .. }) && self.first(0).is_none() {
            self.move_over(labels);
        }
        let queue = match self.buckets() {
            Some(count) => (0..count)
                .map(|step| (self.last + step) % count)
                .find(|&bucket| self.first(bucket).is_some())?,
            None => 0,
        };
        let station = self.first(queue)?;
        self.places.remove(&station);
        self.last = queue;
        Some(station)
    }

    fn buckets(&self) -> Option<i64> {
        match self.rule {
            Rule::Bucket { width, span } => Some(span / width + 1),
            _ => None,
        }
    }

    fn bucket(&self, label: Option<i64>) -> i64 {
        match (self.rule, label) {
            (Rule::Bucket { width, span }, Some(label)) => {
                self.grading.rank(label) / width % (span / width + 1)
            }
            _ => 0,
        }
    }

    /// The station of the least place in a queue or bucket.
    fn first(&self, queue: i64) -> Option<usize> {
        let here = self.places.iter().filter(|(_, place)| place.0 == queue);
        here.min_by_key(|(_, place)| place.1)
            .map(|(&station, _)| station)
    }

    /// From the second queue to the first, which is empty. Places stay, and so the order.
    fn move_over(&mut self, labels: &[i64]) {
        let step = match self.rule {
            Rule::Threshold { step } => step,
            _ => return,
        };
        let all = self.places.keys().all(|&station| station < labels.len());
        if all {
            let ranked = self.places.keys().map(|&station| labels[station]);
            match ranked.min_by_key(|&label| self.grading.rank(label)) {
                Some(best) => self.threshold = self.grading.over(best, step),
                None => return,
            }
        }
        for (&station, place) in &mut self.places {
            let near = match labels.get(station) {
                Some(&label) => all && !self.grading.beats(self.threshold, label),
                None => true,
            };
            if near {
                place.0 = 0;
            }
        }
    }
}
