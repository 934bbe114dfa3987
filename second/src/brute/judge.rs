//! Judges the answers to a script by the lines and the answers alone: labels at rest, picks,
//! regrades, the check, routes, and candidate lists by hand.

mod by_hand;
mod calls;

use super::grading::{Grading, GRADINGS};
use super::paths::Links;
use super::recall::Recall;
use super::waiting::Rule;
use super::{OWN, UNLABELLED};
use crate::answers::words;
use std::collections::BTreeMap;

/// What was judged, by its name, and how often.
pub type Judged = BTreeMap<&'static str, usize>;

#[derive(Default)]
pub struct Judge {
    recall: Option<Recall>,
    pub judged: Judged,
}

/// A word of a line, or of an answer.
fn text(word: &[u8]) -> String {
    String::from_utf8_lossy(word).into_owned()
}

fn number<T: std::str::FromStr>(word: &str) -> Result<T, String> {
    word.parse().map_err(|_| format!("no number: {word}"))
}

fn numbers<T: std::str::FromStr>(words: &[&str]) -> Result<Vec<T>, String> {
    words.iter().map(|word| number(word)).collect()
}

fn holds(lawful: bool, why: impl FnOnce() -> String) -> Result<(), String> {
    if lawful {
        Ok(())
    } else {
        Err(why())
    }
}

impl Judge {
    /// The next line that is answered, and its answer. An error tells what is wrong with it.
    pub fn hear(&mut self, line: &[u8], answer: &[u8]) -> Result<(), String> {
        let line: Vec<String> = words(line).map(text).collect();
        let answer: Vec<String> = words(answer).map(text).collect();
        let line: Vec<&str> = line.iter().map(String::as_str).collect();
        let answer: Vec<&str> = answer.iter().map(String::as_str).collect();
        match (&line[..], &answer[..]) {
            ([], _) | (_, []) => Err("a line or an answer without a word".to_string()),
            ([call, rest @ ..], ["refused", told @ ..]) => self.refused(call, rest, told),
            (_, ["error", ..]) => Ok(()),
            (["net", rest @ ..], _) => self.net(rest),
            ([call, rest @ ..], [_, told @ ..]) => self.accepted(call, rest, told),
        }
    }

    fn count(&mut self, what: &'static str) {
        *self.judged.entry(what).or_insert(0) += 1;
    }

    fn net(&mut self, words: &[&str]) -> Result<(), String> {
        let slash = words
            .iter()
            .position(|&word| word == "/")
            .ok_or("no slash")?;
        let (starts, heads) = (numbers(&words[..slash])?, numbers(&words[slash + 1..])?);
        let links = Links::of(&starts, &heads);
        let small = links.stations <= 8 && links.ends.len() <= 24;
        let paths = if small { links.simple_paths() } else { None };
        self.recall = Some(Recall::new(links, paths, Grading::Airtime));
        Ok(())
    }

    /// What a refusal of the check or of a route says of a plan.
    fn refused(&mut self, call: &str, rest: &[&str], told: &[&str]) -> Result<(), String> {
        let (refusal, place) = match told {
            [refusal, "place", place, "layer", _] => (number(refusal)?, number(place)?),
            _ => return Err("no refusal".to_string()),
        };
        match (call, rest) {
            ("check", [gateway]) => self.check(number(gateway)?, Some((refusal, place))),
            ("route", [station, places]) if refusal == 11 || refusal == 12 => {
                let site = self.site()?;
                let gateway = site.gateway.ok_or("no start yet")?;
                if let Some(plan) = site.plan() {
                    let own = plan.entries[gateway] == OWN;
                    let way = plan.entered(gateway, number(station)?).filter(|_| own);
                    let length = way.map(<[usize]>::len);
                    let right = match length {
                        Some(length) => {
                            refusal == 12 && length == place && length > number(places)?
                        }
                        None => refusal == 11,
                    };
                    holds(right, || format!("the route has {length:?} links"))?;
                    self.count("routes refused");
                }
                Ok(())
            }
            _ => Ok(()),
        }
    }

    fn site(&mut self) -> Result<&mut Recall, String> {
        self.recall.as_mut().ok_or_else(|| "no net yet".to_string())
    }

    fn accepted(&mut self, call: &str, rest: &[&str], told: &[&str]) -> Result<(), String> {
        let site = self.site()?;
        match (call, rest, told) {
            ("kind", [name], _) => {
                let named = GRADINGS.into_iter().find(|kind| kind.name() == *name);
                let grading = named.ok_or("no kind")?;
                let links = std::mem::replace(
                    &mut site.links,
                    Links {
                        stations: 0,
                        ends: Vec::new(),
                    },
                );
                let paths = site.paths.take();
                self.recall = Some(Recall::new(links, paths, grading));
                Ok(())
            }
            ("grades", _, _) => {
                let grading = site.grading;
                let grades = numbers(rest)?;
                site.grades = grades
                    .into_iter()
                    .map(|grade| grading.read(grade))
                    .collect();
                site.clean = false;
                Ok(())
            }
            ("list", _, _) => {
                site.new_list(rule(rest)?);
                Ok(())
            }
            ("path", _, [label]) => self.path(numbers(rest)?, number(label)?),
            ("start", [gateway], _) => {
                site.started(number(gateway)?);
                Ok(())
            }
            ("work", [allowed], [picks, waiting]) => {
                self.work(number(allowed)?, number(picks)?, number(waiting)?)
            }
            ("regrade", [link, grade], [lost, new]) => {
                self.regrade(number(link)?, number(grade)?, number(lost)?, number(new)?)
            }
            ("ask", [station], [told @ .., waiting]) => {
                self.ask(number(station)?, told, number(waiting)?)
            }
            ("route", [station, places], [_, links @ ..]) => {
                self.route(number(station)?, number(places)?, numbers(links)?)
            }
            ("check", [gateway], ["ok"]) => self.check(number(gateway)?, None),
            ("labels", [], _) => {
                let labels = numbers(told)?;
                let same = site.labels.as_ref().map_or(true, |known| *known == labels);
                site.labels = Some(labels);
                holds(same, || "other labels than there should be".to_string())?;
                self.shown()
            }
            ("entries", [], _) => {
                let entries = numbers(told)?;
                let same = site
                    .entries
                    .as_ref()
                    .map_or(true, |known| *known == entries);
                site.entries = Some(entries);
                holds(same, || "other entries than there should be".to_string())?;
                self.shown()
            }
            ("poke", [part, index, value], _) => {
                site.clean = false;
                let index: usize = number(index)?;
                let grade = |site: &Recall| number(value).map(|value| site.grading.read(value));
                match *part {
                    "label" => {
                        let value = grade(site)?;
                        put(site.labels.as_mut(), index, value)
                    }
                    "grade" => {
                        let value = grade(site)?;
                        put(Some(&mut site.grades), index, value)
                    }
                    _ => put(site.entries.as_mut(), index, number(value)?),
                }
            }
            ("resize", [part, count], _) => {
                site.clean = false;
                let (count, start) = (number(count)?, site.grading.start());
                match *part {
                    "labels" => site
                        .labels
                        .iter_mut()
                        .for_each(|list| list.resize(count, start)),
                    "grades" => site.grades.resize(count, 0),
                    _ => site
                        .entries
                        .iter_mut()
                        .for_each(|list| list.resize(count, UNLABELLED)),
                }
                Ok(())
            }
            ("enter", [station, handed @ ..], [told]) => self.enter(number(station)?, handed, told),
            ("pick", handed, [told]) => self.pick(handed, told),
            ("empty", [], _) => {
                site.clean = false;
                site.new_list(site.rule);
                Ok(())
            }
            ("waiting", [], [count]) => self.waiting(number(count)?),
            _ => Err("an answer that does not fit its line".to_string()),
        }
    }
}

fn rule(words: &[&str]) -> Result<Rule, String> {
    Ok(match words {
        ["first-in"] => Rule::FirstIn,
        ["two-ended"] => Rule::TwoEnded,
        ["small-label"] => Rule::SmallLabel,
        ["threshold", step] => Rule::Threshold {
            step: number(step)?,
        },
        ["bucket", width, span] => Rule::Bucket {
            width: number(width)?,
            span: number(span)?,
        },
        _ => return Err("no list".to_string()),
    })
}

fn put<T>(list: Option<&mut Vec<T>>, index: usize, value: T) -> Result<(), String> {
    match list {
        Some(list) => {
            *list.get_mut(index).ok_or("an index beyond its list")? = value;
            Ok(())
        }
        None => Ok(()),
    }
}
