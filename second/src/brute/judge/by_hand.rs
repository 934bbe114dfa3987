//! Judges the candidate list by hand.

use super::{holds, number, Judge};

impl Judge {
    pub(super) fn enter(
        &mut self,
        station: usize,
        handed: &[&str],
        told: &str,
    ) -> Result<(), String> {
        let count = handed_over(handed)?;
        let site = self.site()?;
        site.clean = false;
        let known = site.set.as_mut().map(|set| set.insert(station));
        site.order = match (site.order.take(), &site.labels) {
            (Some(mut order), Some(labels)) => {
                order.enter(station, &labels[..labels.len().min(count)]);
                Some(order)
            }
            _ => None,
        };
        if let Some(new) = known {
            let right = if new { "new" } else { "waiting" };
            holds(told == right, || format!("the station is {right}"))?;
            self.count("entries by hand");
        }
        Ok(())
    }

    pub(super) fn pick(&mut self, handed: &[&str], told: &str) -> Result<(), String> {
        let count = handed_over(handed)?;
        let site = self.site()?;
        site.clean = false;
        let picked: Option<usize> = if told == "none" {
            None
        } else {
            Some(number(told)?)
        };
        let first = match (site.order.take(), &site.labels) {
            (Some(mut order), Some(labels)) => {
                let first = order.pick(&labels[..labels.len().min(count)]);
                site.order = Some(order);
                Some(first)
            }
            _ => None,
        };
        if let Some(set) = &mut site.set {
            let right = match &picked {
                Some(station) => set.remove(station),
                None => set.is_empty(),
            };
            holds(right, || {
                "that station does not wait, or some do".to_string()
            })?;
            self.count("picks by hand");
        }
        if let Some(first) = first {
            holds(first == picked, || format!("{first:?} comes first"))?;
            self.count("picks by hand in their order");
        }
        Ok(())
    }

    pub(super) fn waiting(&mut self, count: usize) -> Result<(), String> {
        if let Some(set) = &self.site()?.set {
            holds(set.len() == count, || format!("{set:?} wait"))?;
            self.count("counts of who waits");
        }
        Ok(())
    }
}

/// How many labels are handed over, at most.
fn handed_over(words: &[&str]) -> Result<usize, String> {
    words.first().map_or(Ok(usize::MAX), |word| number(word))
}
