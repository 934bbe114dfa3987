//! One queue, picked from the top; a rule says at which end a station enters.

use super::Order;
use std::collections::VecDeque;

pub trait Rule {
    /// Whether a station that did not wait goes to the top of this queue, whose front is the top.
    fn leads(&mut self, station: usize, queue: &VecDeque<usize>, labels: &[i64]) -> bool;

    /// The list was emptied.
    fn forget(&mut self) {}
}

pub struct Queue<R> {
    rule: R,
    /// Front is the top.
    line: VecDeque<usize>,
}

impl<R> Queue<R> {
    pub fn new(rule: R) -> Queue<R> {
        Queue {
            rule,
            line: VecDeque::new(),
        }
    }
}

impl<R: Rule> Order for Queue<R> {
    fn empty(&mut self) {
        self.line.clear();
        self.rule.forget();
    }

    fn holds(&self, station: usize) -> bool {
        self.line.contains(&station)
    }

    fn add(&mut self, station: usize, labels: &[i64]) {
        if self.rule.leads(station, &self.line, labels) {
            self.line.push_front(station);
        } else {
            self.line.push_back(station);
        }
    }

    fn pick(&mut self, _labels: &[i64]) -> Option<usize> {
        self.line.pop_front()
    }

    fn waiting(&self) -> usize {
        self.line.len()
    }
}
