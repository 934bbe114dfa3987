//! Judges paths, the book's calls and the check.

use super::{holds, Judge};
use crate::brute::UNLABELLED;
use std::collections::BTreeSet;

impl Judge {
    /// The grade of a path whose links follow each other.
    pub(super) fn path(&mut self, links: Vec<usize>, label: i64) -> Result<(), String> {
        let site = self.site()?;
        let mut end = None;
        for link in &links {
            let (tail, head) = *site
                .links
                .ends
                .get(*link)
                .ok_or("a link that is not there")?;
            holds(end.map_or(true, |end| end == tail), || {
                "no path".to_string()
            })?;
            end = Some(head);
        }
        let grade = site
            .grading
            .along(links.iter().map(|&link| site.grades[link]));
        holds(grade == label, || format!("the path has grade {grade}"))?;
        self.count("grades of paths");
        Ok(())
    }

    /// Picks within their bound, and none left waiting where some were not used.
    pub(super) fn work(
        &mut self,
        allowed: usize,
        picks: usize,
        waiting: usize,
    ) -> Result<(), String> {
        holds(picks <= allowed, || "more picks than allowed".to_string())?;
        holds(picks == allowed || waiting == 0, || {
            "some still wait".to_string()
        })?;
        if picks == 0 {
            self.waiting(waiting)?;
        }
        let site = self.site()?;
        site.worked(picks, waiting);
        let (sum, most) = (site.picks, site.most_picks());
        if let (true, Some(most)) = (site.clean, most) {
            holds(sum <= most, || {
                format!("{sum} picks, at most {most} can be")
            })?;
            self.count("picks within their bound");
        }
        Ok(())
    }

    /// A regrade takes the labels of those, and only those, whose route ran over a link that is
    /// worse than its head's label now.
    pub(super) fn regrade(
        &mut self,
        link: usize,
        grade: i64,
        lost: usize,
        new: usize,
    ) -> Result<(), String> {
        let site = self.site()?;
        let (tail, head) = *site
            .links
            .ends
            .get(link)
            .ok_or("a link that is not there")?;
        site.grades[link] = grade;
        site.picks = 0;
        site.order = None;
        let plan = match site.plan() {
            Some(plan) => plan,
            None => {
                // Nothing is known of what was lost, and of who waits.
                site.labels = None;
                site.entries = None;
                site.set = None;
                return Ok(());
            }
        };
        let brought = site.grading.over(plan.labels[tail], grade);
        let spoils = plan.entries[head] == link && site.grading.beats(plan.labels[head], brought);
        let stations = site.links.stations;
        let behind: BTreeSet<usize> = (0..stations)
            .filter(|&station| spoils && plan.runs_over(station, link))
            .collect();
        let stays = |station: &usize| plan.labelled(*station) && !behind.contains(station);
        let leads = |station: &usize| {
            let mut ends = site.links.ends.iter();
            ends.any(|(tail, head)| tail == station && behind.contains(head))
        };
        let entering: BTreeSet<usize> = if spoils {
            (0..stations).filter(stays).filter(leads).collect()
        } else {
            BTreeSet::from([tail]).into_iter().filter(stays).collect()
        };
        let start = site.grading.start();
        for &station in &behind {
            site.labels
                .iter_mut()
                .for_each(|labels| labels[station] = start);
            site.entries
                .iter_mut()
                .for_each(|entries| entries[station] = UNLABELLED);
        }
        holds(lost == behind.len(), || {
            format!("{behind:?} lose their labels")
        })?;
        if let Some(set) = &mut site.set {
            let fresh: Vec<&usize> = entering.difference(set).collect();
            holds(new == fresh.len(), || {
                format!("{fresh:?} are new to the list")
            })?;
            set.extend(entering);
        }
        self.count(if spoils {
            "regrades that take labels"
        } else {
            "regrades that take none"
        });
        Ok(())
    }

    pub(super) fn ask(
        &mut self,
        station: usize,
        told: &[&str],
        waiting: usize,
    ) -> Result<(), String> {
        self.waiting(waiting)?;
        let site = self.site()?;
        if let (Some(labels), Some(entries)) = (&site.labels, &site.entries) {
            let (label, entry) = (labels[station], entries[station]);
            let right = if entry == UNLABELLED {
                told == ["none"]
            } else {
                told == [label.to_string(), entry.to_string()]
            };
            holds(right, || format!("label {label}, entry {entry}"))?;
            self.count("questions");
        }
        Ok(())
    }

    /// The way by the entries, which fits the places.
    pub(super) fn route(
        &mut self,
        station: usize,
        places: usize,
        links: Vec<usize>,
    ) -> Result<(), String> {
        let site = self.site()?;
        holds(links.len() <= places, || {
            "more links than places".to_string()
        })?;
        let gateway = site.gateway.ok_or("no start yet")?;
        if let Some(plan) = site.plan() {
            let way = plan.entered(gateway, station);
            holds(way == Some(&links[..]), || format!("the route is {way:?}"))?;
            self.count("routes");
        }
        Ok(())
    }

    /// The check tells the first fault, and none exactly for a tree of best paths.
    pub(super) fn check(
        &mut self,
        gateway: usize,
        told: Option<(u8, usize)>,
    ) -> Result<(), String> {
        let site = self.site()?;
        if let Some(plan) = site.plan() {
            let fault = plan.first_fault(gateway);
            holds(fault == told, || format!("the first fault is {fault:?}"))?;
            let tree = plan.is_tree_of_best_paths(gateway);
            holds(tree == told.is_none(), || {
                format!("a tree of best paths: {tree}")
            })?;
            let rests = site.clean && site.rests() && site.gateway == Some(gateway);
            holds(!rests || tree, || "a book at rest must pass".to_string())?;
            self.count(if tree {
                "plans accepted"
            } else {
                "plans refused"
            });
        }
        Ok(())
    }

    /// Labels and entries at rest are a tree of best paths.
    pub(super) fn shown(&mut self) -> Result<(), String> {
        let site = self.site()?;
        let rests = site.clean && site.rests();
        if let (true, Some(gateway), Some(plan)) = (rests, site.gateway, site.plan()) {
            for station in 0..site.links.stations {
                let best = plan.best(gateway, station);
                let label = Some(plan.labels[station]).filter(|_| plan.labelled(station));
                holds(label == best, || {
                    format!("station {station} should have {best:?}")
                })?;
            }
            let tree = plan.is_tree_of_best_paths(gateway);
            holds(tree, || "entry paths that are not best".to_string())?;
            self.count("books at rest");
        }
        Ok(())
    }
}
