//! Lines about books with all stations and links that there can be, and about long works.

use super::book_rows::Book;
use super::kind::{Kind, KINDS};
use super::list_rows::LISTS;
use super::net::{Net, MOST_LINKS, MOST_STATIONS};
use super::rows::Sort;
use super::script::Script;

/// On one ring of all stations, whose link s leads from station s to the next.
const RING: &str = "\
start 0
work 1
work 1000
ask 1000
ask 1002
work 65535
ask 1023
route 1023 1022
route 1023 1023
route 512 65535
regrade 511 3
ask 511
ask 512
route 1023 1023
work 65535
ask 1023
regrade 1022 2
regrade 1023 9
regrade 0 4
work 65535
ask 1023
poke entry 0 1023
route 0 9
route 700 65535
regrade 700 0
regrade 700 9
labels
entries
waiting
work 65535
start 1023
work 65535
route 1022 1023
ask 1022
poke entry 1023 1022
poke label 1023 77
regrade 1023 5
ask 1022
ask 1023
waiting
enter 500
work 65535
start 600
enter 1023 0
work 65535
ask 599
entries
poke entry 600 599
regrade 599 2
route 599 1023
poke entry 600 65534
route 599 1023
route 600 0
";

impl Script {
    pub fn grade_line(&mut self, grades: &[i64]) {
        let mut words = vec!["grades".to_string()];
        words.extend(grades.iter().map(i64::to_string));
        self.line(&words);
    }

    /// Each kind on a net at random, with every list. Asking tells more shortly than all labels do.
    pub fn large_books(&mut self) {
        for kind in KINDS {
            self.row(Sort::LargeBook, |script| {
                let net = Net::random(&mut script.dice, MOST_STATIONS, MOST_LINKS);
                script.large_book(kind, net, &LISTS);
            });
        }
    }

    pub fn large_book(&mut self, kind: Kind, net: Net, lists: &[&str]) {
        let gateway = self.dice.below(net.stations());
        let book = Book { net, kind, gateway };
        self.line(&book.net.words());
        self.words(&format!("kind {}", kind.name()));
        let grades: Vec<i64> = (0..book.links())
            .map(|_| kind.grade(&mut self.dice))
            .collect();
        for name in lists {
            self.grade_line(&grades);
            let words = match (*name, kind) {
                ("threshold", Kind::Airtime) => "threshold 300",
                ("bucket", Kind::Airtime) => "bucket 100 4999",
                ("threshold", Kind::Chance) => "threshold 60000",
                ("bucket", Kind::Chance) => "bucket 1025 65536",
                ("threshold", Kind::Margin) => "threshold 40",
                ("bucket", Kind::Margin) => "bucket 9 255",
                (name, _) => name,
            };
            self.words(&format!("list {words}"));
            self.words(&format!("start {gateway}"));
            for allowed in [1, 30, 500] {
                self.words(&format!("work {allowed}"));
                self.ask_some(&book, 4);
            }
            self.text("work 65535\nlabels\nentries\n");
            self.large_regrades(&book);
        }
    }

    fn ask_some(&mut self, book: &Book, count: usize) {
        for _ in 0..count {
            let station = book.station(&mut self.dice);
            self.words(&format!("ask {station}"));
        }
        let station = book.station(&mut self.dice);
        let places = self.dice.pick(&[3, 6, 1024, 65535]);
        self.words(&format!("route {station} {places}"));
    }

    fn large_regrades(&mut self, book: &Book) {
        for _ in 0..25 {
            let link = book.link(&mut self.dice);
            let grade = if self.dice.percent(70) {
                book.kind.bad(&mut self.dice)
            } else {
                book.kind.grade(&mut self.dice)
            };
            self.words(&format!("regrade {link} {grade}"));
            if self.dice.percent(40) {
                let allowed = self.dice.pick(&[1, 20, 65535]);
                self.words(&format!("work {allowed}"));
            }
            self.ask_some(book, 1);
        }
        self.text("work 65535\n");
        self.ask_some(book, 12);
    }

    /// One ring of all stations: the longest ways and the longest walks.
    pub fn large_ring(&mut self) {
        self.text("\n# A ring of all stations.\n");
        let links = (0..MOST_STATIONS).map(|tail| (tail, (tail + 1) % MOST_STATIONS, 2));
        let (net, grades) = Net::of(MOST_STATIONS, links.collect());
        self.line(&net.words());
        self.grade_line(&grades);
        self.text(RING);
    }

    /// All links from one station to the others, and back.
    pub fn large_star(&mut self) {
        self.text("\n# A star of all stations.\n");
        let mut links = Vec::new();
        for leaf in 1..MOST_STATIONS {
            let grade = self.dice.below(50) as i64;
            links.push((0, leaf, grade));
            links.push((leaf, 0, self.dice.below(50) as i64));
            links.push((leaf, 1 + self.dice.below(MOST_STATIONS - 1), grade));
        }
        let (net, grades) = Net::of(MOST_STATIONS, links);
        self.line(&net.words());
        for list in LISTS {
            self.grade_line(&grades);
            self.words(&match list {
                "threshold" => "list threshold 5".to_string(),
                "bucket" => "list bucket 3 60".to_string(),
                _ => format!("list {list}"),
            });
            self.text("start 0\nwork 1\nwork 300\nask 7\nwork 65535\nask 900\nroute 900 9\n");
            self.text("start 5\nwork 1\nask 0\nwork 1\nwork 65535\nask 5\nask 6\n");
            for link in 0..20 {
                self.words(&format!("regrade {link} 200"));
            }
            self.text("work 65535\nask 21\nroute 21 9\nroute 8 2\n");
        }
    }

    /// A way that forks `depth` times, each time to a side that is shorter and comes later. For
    /// each side a two-ended list goes through the rest of the way anew, and so the picks double.
    pub fn long_works(&mut self, depth: usize) {
        const FAR: i64 = 1 << 30;
        self.text("\n# Works of more picks than one call can allow.\n");
        let (gateway, last_in) = (0, 1);
        let (fork, side) = (|at: usize| 2 + 2 * at, |at: usize| 3 + 2 * at);
        let stations = fork(depth) + 1;
        // All others enter once, far off, before the one that leads to them by a short way.
        let mut links: Vec<(usize, usize, i64)> =
            (2..stations).map(|to| (gateway, to, FAR)).collect();
        links.push((gateway, last_in, 0));
        links.push((last_in, fork(0), 0));
        for at in 0..depth {
            links.push((fork(at), side(at), 0));
            links.push((fork(at), fork(at + 1), 1 << (depth - 1 - at)));
            links.push((side(at), fork(at + 1), 0));
        }
        let (net, grades) = Net::of(stations, links);
        self.line(&net.words());
        self.grade_line(&grades);
        for list in ["two-ended", "small-label", "first-in"] {
            self.text(&format!("list {list}\nstart 0\nwork 40\nlabels\n"));
            self.text("work 65535\nlabels\nentries\nwork 65535\nlabels\nentries\n");
        }
    }

    /// Lines far longer than any buffer, and words with odd blanks.
    pub fn long_book_lines(&mut self) {
        let zeros = "0".repeat(5000);
        self.text("\n# Long words, many words, odd blanks.\nnet 0 1 1 / 1\ngrades 7\n");
        self.text(&format!(
            "start {zeros}\nwork {zeros}1\nregrade {zeros} {zeros}9\n"
        ));
        self.text(&format!(
            "ask {zeros}1\nwork {zeros}9\nroute {zeros}1 {zeros}1\n"
        ));
        self.text(&format!(
            "poke entry {zeros}1 {zeros}65534\nresize labels {zeros}3\n"
        ));
        self.text(&format!("start {}\nlabels\nentries\n", "9".repeat(5000)));
        for command in [
            "start", "work", "regrade", "ask", "route", "labels", "entries",
        ] {
            self.text(command);
            self.many(&[(5000, 1)]);
            self.text("\n");
        }
        self.text("resize\tlabels\r2\n start\t0 \r\n\twork\r\r 9\t\nregrade \t0\t8\r\n ask\r1\n");
        self.text("route\t1   5\r\n\r labels \t\nentries\r\nlabels\x0b\nentries\0\nwork\u{a0}1\n");
    }
}
