//! Lines about candidate lists by hand that go on for long, or hold all stations that there can be.

use super::kind::Kind;
use super::net::MOST_STATIONS;
use super::rows::Sort;
use super::script::Script;

impl Script {
    /// Lines far longer than any buffer, and words with odd blanks.
    pub fn long_list_lines(&mut self) {
        let zeros = "0".repeat(5000);
        self.text("\n# Long words, many words, odd blanks.\nnet 0 0 0 0 /\n");
        self.text(&format!("enter {zeros}2 {zeros}\npick {zeros}9\n"));
        self.text(&format!("poke label {zeros}1 {zeros}7\nlabels\n"));
        self.text(&format!("enter {}\nwaiting\n", "9".repeat(5000)));
        for command in ["enter", "pick", "empty", "poke label", "list bucket"] {
            self.text(command);
            self.many(&[(5000, 1)]);
            self.text("\n");
        }
        self.text("\tenter\t1\r\n  enter   0  9 \r\r\n\rwaiting\t\n \tpick \t 9\r\npick\r\n");
        self.text("list\tbucket\r10 \t 29\r\npoke\tlabel\r1  15\n labels \r\nempty\t\n");
        self.text("list first-in\x0b\npick\x0c\nenter \u{a0}1\nwaiting\0\n");
    }

    /// So many entries and picks on few stations that a queue of 1,024 places comes round.
    pub fn long_rows(&mut self, picks: usize) {
        for words in [
            "first-in",
            "two-ended",
            "small-label",
            "threshold 9",
            "bucket 4 31",
        ] {
            self.row(Sort::List, |script| script.long_row(words, picks));
        }
    }

    fn long_row(&mut self, words: &str, picks: usize) {
        const STATIONS: usize = 6;
        self.bare_net(STATIONS);
        self.text(&format!("list {words}\n"));
        let labelled = !matches!(words, "first-in" | "two-ended");
        for round in 0..picks {
            // Two entries to a pick, as about half of them find their station waiting.
            for _ in 0..2 {
                let station = self.dice.below(STATIONS);
                if labelled && self.dice.percent(90) {
                    // Mostly worse than all before, so that it goes to a bottom.
                    let label = 25 * round + self.dice.below(60);
                    self.text(&format!("poke label {station} {label}\n"));
                }
                self.text(&format!("enter {station}\n"));
            }
            self.text("pick\n");
            if words == "two-ended" && self.dice.percent(10) {
                self.text("empty\n");
            }
        }
        self.text("waiting\n");
    }

    /// Each list over airtimes, and those that go by labels over margins too.
    pub fn full_lists(&mut self) {
        let airtime = [
            "first-in",
            "two-ended",
            "small-label",
            "threshold 500",
            "bucket 100 4999",
        ];
        let margin = ["small-label", "threshold 90", "bucket 9 255"];
        for (kind, lists) in [(Kind::Airtime, &airtime[..]), (Kind::Margin, &margin)] {
            self.row(Sort::LargeList, |script| {
                script.full_net(kind);
                for words in lists {
                    script.full_list(kind, words);
                }
                script.all_wait();
            });
        }
    }

    /// All stations that there can be, with labels.
    pub fn full_net(&mut self, kind: Kind) {
        self.bare_net(MOST_STATIONS);
        self.words(&format!("kind {}", kind.name()));
        let spread = kind.top_rank().min(4999) + 1;
        for station in 0..MOST_STATIONS {
            let label = kind.ranked(self.dice.below(spread));
            self.text(&format!("poke label {station} {label}\n"));
        }
    }

    /// All stations wait at once, and again after some picks.
    pub fn full_list(&mut self, kind: Kind, words: &str) {
        self.text(&format!("list {words}\n"));
        self.fill("");
        for _ in 0..300 {
            self.text("pick\n");
        }
        self.fill(" 700");
        for _ in 0..30 {
            let (station, label) = (self.dice.below(MOST_STATIONS), self.dice.below(5));
            let label = kind.ranked(label);
            self.text(&format!("poke label {station} {label}\n"));
        }
        for _ in 0..400 {
            self.text("pick 600\n");
        }
        self.text("waiting\n");
    }

    /// What the calls tell while all stations wait.
    pub fn all_wait(&mut self) {
        self.text("start 0\n");
        self.fill("");
        self.text("work 0\nask 0\nask 1\nwork 1\nask 0\nenter 0\nwork 65535\nwork 1\n");
    }

    /// Every station enters, none in the order of its number, and one too many.
    fn fill(&mut self, handed: &str) {
        // Odd, so that its multiples below 1,024 meet every station once.
        let stride = 2 * self.dice.below(512) + 1;
        for place in 0..1024 {
            self.text(&format!("enter {}{handed}\n", place * stride % 1024));
        }
        self.text("enter 1024\nenter 0\nenter 1023\nwaiting\n");
    }
}
