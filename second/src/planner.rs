//! Which command a line is, and its answer.

use crate::commands::{by_hand, calls, check, memory, settings};
use crate::faults::{Fault, Why};
use crate::reading;
use crate::script::{Line, Word, Words};
use crate::site::Site;

enum Command {
    /// Opens a site.
    Net,
    OnSite(fn(&mut Site, Words) -> Result<String, Fault>),
}

impl Command {
    fn named(name: &[u8]) -> Option<Command> {
        Some(match name {
            b"net" => Command::Net,
            b"kind" => Command::OnSite(settings::kind),
            b"grades" => Command::OnSite(settings::grades),
            b"list" => Command::OnSite(settings::list),
            b"path" => Command::OnSite(settings::path),
            b"start" => Command::OnSite(calls::start),
            b"work" => Command::OnSite(calls::work),
            b"regrade" => Command::OnSite(calls::regrade),
            b"ask" => Command::OnSite(calls::ask),
            b"route" => Command::OnSite(calls::route),
            b"check" => Command::OnSite(check::check),
            b"labels" => Command::OnSite(memory::labels),
            b"entries" => Command::OnSite(memory::entries),
            b"poke" => Command::OnSite(memory::poke),
            b"resize" => Command::OnSite(memory::resize),
            b"enter" => Command::OnSite(by_hand::enter),
            b"pick" => Command::OnSite(by_hand::pick),
            b"empty" => Command::OnSite(by_hand::empty),
            b"waiting" => Command::OnSite(by_hand::waiting),
            _ => return None,
        })
    }
}

/// Carries out the lines of one script.
#[derive(Default)]
pub struct Planner {
    /// None before the first accepted net.
    site: Option<Site>,
}

impl Planner {
    /// The line's answer, without a line feed; none for a line that is passed over.
    pub fn answer(&mut self, line: &Line) -> Option<String> {
        let mut words = Words::of(line.bytes);
        let first = words.next()?;
        if first.bytes.starts_with(b"#") {
            return None;
        }
        let words = if line.whole {
            Ok(words)
        } else {
            Err(Why::OutOfMemory)
        };
        Some(match self.carry_out(first, words) {
            Ok(answer) => answer,
            Err(Fault::Refused(refusal)) => refusal.to_string(),
            Err(Fault::Error(why)) => format!("error line {}: {why}", line.number),
        })
    }

    fn carry_out(&mut self, first: Word, words: Result<Words, Why>) -> Result<String, Fault> {
        match Command::named(first.bytes).ok_or(Why::UnknownCommand)? {
            Command::Net => {
                let made = Site::new(reading::net(words?)?)?;
                let answer = format!("net ok {} {}", made.net.stations(), made.net.links());
                self.site = Some(made);
                Ok(answer)
            }
            Command::OnSite(command) => {
                let site = self.site.as_mut().ok_or(Why::NoNet)?;
                command(site, words?)
            }
        }
    }
}

#[cfg(test)]
mod tests {
    use crate::tests::check;

    #[test]
    fn lines_without_an_answer_are_counted() {
        check(
            "\n  # x\n#x\n \t\r\nfoo\r\nnet 0 0 /",
            &["error line 5: unknown command", "net ok 1 0"],
        );
    }

    #[test]
    fn no_net_comes_after_unknown_and_before_words() {
        check(
            "pat 0\npath x\nkind\nnet x\nnet 0 /\ngrades\nnet 0 0 /\ngrades",
            &[
                "error line 1: unknown command",
                "error line 2: no net yet",
                "error line 3: no net yet",
                "error line 4: word 2 is not a number from 0 to 65535",
                "refused 1 place 0 layer net",
                "error line 6: no net yet",
                "net ok 1 0",
                "grades 0",
            ],
        );
    }

    #[test]
    fn words_of_net() {
        let slash = "net needs one / between starts and heads";
        let word = |k| format!("word {k} is not a number from 0 to 65535");
        check(
            "net\nnet 0 1\nnet 0 x\nnet 0 1 / 0 /\nnet 0 1/ 0\nnet 0 1 / -0\nnet/\nnet /",
            &[
                &format!("error line 1: {slash}"),
                &format!("error line 2: {slash}"),
                &format!("error line 3: {}", word(3)),
                &format!("error line 4: {}", word(6)),
                &format!("error line 5: {}", word(3)),
                &format!("error line 6: {}", word(5)),
                "error line 7: unknown command",
                "refused 1 place 0 layer net",
            ],
        );
    }

    #[test]
    fn a_refused_net_changes_nothing_and_a_new_one_all() {
        check(
            "net 0 1 / 0\nkind margin\ngrades 9\nnet 0 1 / 1\npath 0\nnet 0 1 / 0\npath\npath 0",
            &[
                "net ok 1 1",
                "kind margin",
                "grades 1",
                "refused 4 place 0 layer net",
                "path 9",
                "net ok 1 1",
                "path 0",
                "path 0",
            ],
        );
    }
}
