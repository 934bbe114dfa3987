//! Lines about nets, kinds, grades and paths, at random and at the bounds.

use super::kind::{Kind, KINDS};
use super::net::{Net, MOST_LINKS, MOST_STATIONS};
use super::rows::Sort;
use super::script::Script;

impl Script {
    fn grades(&mut self, net: &Net, kind: Kind) {
        let links = net.heads.len();
        let count = match self.dice.below(20) {
            0 => self.dice.below(links + 1),
            1 => links + 1 + self.dice.below(3),
            _ => links,
        };
        let mut words = vec!["grades".to_string()];
        for _ in 0..count {
            words.push(kind.grade(&mut self.dice).to_string());
        }
        if self.dice.percent(6) {
            let place = 1 + self.dice.below(words.len());
            words.insert(place, kind.wrong(&mut self.dice).to_string());
        }
        self.line(&words);
    }

    fn path(&mut self, net: &Net) {
        let links = net.heads.len();
        let most = match self.dice.below(40) {
            0 => 40 + self.dice.below(80),
            1 | 2 => 0,
            _ => 1 + self.dice.below(10),
        };
        let walk = net.walk(&mut self.dice, most);
        let mut words: Vec<String> = walk.iter().map(usize::to_string).collect();
        // Most stay walks. Another link may by chance follow all the same.
        let place = self.dice.below(words.len() + 1);
        match self.dice.below(20) {
            0 => words.insert(place, self.dice.below(links).to_string()),
            1 => words.insert(place, (links + self.dice.pick(&[0, 0, 1, 7])).to_string()),
            2 => {
                words.insert(place, links.to_string());
                let place = self.dice.below(words.len() + 1);
                words.insert(place, self.dice.below(links).to_string());
            }
            3 if place < words.len() => {
                words.remove(place);
            }
            4 => words.reverse(),
            5 if self.dice.percent(50) => {
                let word = self.dice.pick(&[
                    "65535",
                    "65536",
                    "-1",
                    "-0",
                    "+0",
                    "x",
                    "/",
                    "0x1",
                    "4294967296",
                ]);
                words.insert(place, word.to_string());
            }
            6 => {
                words = (0..1 + self.dice.below(6))
                    .map(|_| self.dice.below(links).to_string())
                    .collect()
            }
            _ => {}
        }
        words.insert(0, "path".to_string());
        self.line(&words);
    }

    fn garbage(&mut self) {
        match self.dice.below(4) {
            0 => {
                for _ in 0..self.dice.below(30) {
                    let byte = self.dice.below(256) as u8;
                    self.bytes.push(if byte == b'\n' { b' ' } else { byte });
                }
            }
            1 => {
                let signs = b"netkidgraspth0123456789 \t\r/#-+";
                for _ in 0..self.dice.below(30) {
                    let byte = self.dice.pick(signs);
                    self.bytes.push(byte);
                }
            }
            2 => {
                let words = [
                    "path", "kind", "grades", "airtime", "chance", "margin", "/", "0", "1", "-1",
                    "#",
                ];
                let line: Vec<&str> = (0..self.dice.below(6))
                    .map(|_| self.dice.pick(&words))
                    .collect();
                self.text(&line.join(" "));
            }
            _ => {
                // One byte of a good line becomes another.
                let lines = [
                    "path 0 0",
                    "grades 1 2 3",
                    "kind airtime",
                    "kind chance",
                    "kind margin",
                ];
                self.damaged(&lines);
            }
        }
        self.text("\n");
    }

    fn work_on(&mut self, net: &Net, kind: Kind) {
        if self.dice.percent(90) {
            self.grades(net, kind);
        }
        for _ in 0..1 + self.dice.below(5) {
            self.path(net);
        }
        if self.dice.percent(12) {
            self.garbage();
        }
    }

    pub fn small_nets(&mut self, count: usize) {
        for _ in 0..count {
            self.row(Sort::Path, Script::small_net);
        }
    }

    pub fn small_net(&mut self) {
        let net = Net::small(&mut self.dice);
        self.line(&net.words());
        if self.dice.percent(50) {
            self.work_on(&net, Kind::Airtime);
        }
        for _ in 0..self.dice.below(3) {
            let kind = self.dice.pick(&KINDS);
            self.line(&["kind".to_string(), kind.name().to_string()]);
            self.work_on(&net, kind);
        }
        if self.dice.percent(30) {
            let mut spoiled = Net::small(&mut self.dice);
            spoiled.spoil(&mut self.dice);
            self.line(&spoiled.words());
            // Shows the old site still in its place, unless the spoiling was none.
            self.path(&net);
        }
    }

    pub fn large_nets(&mut self) {
        for kind in KINDS {
            self.row(Sort::LargePath, |script| {
                let net = Net::random(&mut script.dice, MOST_STATIONS, MOST_LINKS);
                script.large_net(kind, net);
            });
        }
    }

    pub fn large_net(&mut self, kind: Kind, net: Net) {
        let links = net.links();
        self.line(&net.words());
        self.line(&["kind".to_string(), kind.name().to_string()]);
        let mut words = vec!["grades".to_string()];
        for _ in 0..links {
            words.push(kind.grade(&mut self.dice).to_string());
        }
        self.line(&words);
        for most in [1, 2, 3, 5, 8, 20, 100, 500] {
            let walk = net.walk(&mut self.dice, most);
            let mut words = vec!["path".to_string()];
            words.extend(walk.iter().map(usize::to_string));
            self.line(&words);
        }
        for _ in 0..20 {
            self.path(&net);
        }
        self.text(&format!("path {}\npath {links}\n", links - 1));
        if let Kind::Margin = kind {
            let mut spoiled = net;
            let place = links * 3 / 4 - 1;
            spoiled.heads[place] = spoiled.stations();
            self.line(&spoiled.words());
            self.text(&format!("path {place}\n"));
        }
    }

    /// More stations or more links than there can be, or both.
    pub fn too_large(&mut self) {
        let stations = MOST_STATIONS + self.dice.pick(&[0, 0, 0, 1]);
        let links = MOST_LINKS + self.dice.below(3);
        let last = links + self.dice.below(2);
        self.even_net(&[(stations, 0), (1, last)], &[(links, 0)]);
        self.text("path 0\n");
    }

    /// A site in use, and a new net, which leaves nothing of it.
    pub fn replaced_net(&mut self, kind: Kind, list: &str) {
        self.text(&format!("net 0 1 2 / 1 0\nkind {}\n", kind.name()));
        if !matches!(list, "threshold" | "bucket") {
            self.text(&format!("list {list}\n"));
        }
        let grade = kind.grade(&mut self.dice);
        self.text(&format!("grades {grade} {grade}\n"));
        self.text("start 1\nenter 0\npoke label 0 5\npoke entry 0 7\n");
        let net = Net::small(&mut self.dice);
        self.line(&net.words());
        self.text("labels\nentries\nwaiting\nwork 1\nenter 2\nenter 1\npick\npath 0\n");
    }

    /// Nets of which nearly all are refused.
    pub fn spoiled_nets(&mut self, count: usize) {
        for _ in 0..count {
            let mut net = Net::small(&mut self.dice);
            if self.dice.percent(50) {
                net.spoil_heads(&mut self.dice);
            }
            if self.dice.percent(70) {
                net.spoil(&mut self.dice);
            }
            self.line(&net.words());
        }
    }

    /// Nets of the greatest size, and one beyond.
    pub fn bounds(&mut self) {
        self.text("\n# 1024 stations, then 1025.\n");
        self.even_net(&[(1025, 0)], &[]);
        self.text("path\npath 0\n");
        self.even_net(&[(1026, 0)], &[]);
        self.even_net(&[(1024, 0), (1, 1)], &[(1, 1023)]);
        self.text("path 0\npath 0 0\npath 1\n");
        self.even_net(&[(1024, 0), (1, 1)], &[(1, 1024)]);
        self.even_net(&[(1024, 0), (1, 2)], &[(1, 1024)]);
        self.even_net(&[(1026, 0)], &[(1, 1024)]);
        self.text("path 0\n");
        self.text("# 4096 links, then 4097.\n");
        self.even_net(&[(1, 0), (1, 4096)], &[(4096, 0)]);
        self.text("path 4095 0 4095\npath 4096\npath 4095 4096\ngrades 1\npath 0\n");
        self.even_net(&[(1, 0), (1, 4097)], &[(4097, 0)]);
        self.text("path 0\n");
        self.text("# Of several refusals the lowest, at these bounds.\n");
        self.even_net(&[], &[(4097, 0)]);
        self.even_net(&[(1, 0)], &[(4097, 0)]);
        self.even_net(&[(1026, 7)], &[(4097, 9)]);
        self.even_net(&[(1, 0), (1, 4096)], &[(4097, 9)]);
        self.even_net(&[(1, 0), (1, 4097)], &[(4096, 9)]);
        self.even_net(&[(1, 0), (1, 4096)], &[(4095, 0), (1, 1)]);
        self.text("path 4096\n");
    }

    /// Lines far longer than any buffer, and counts that 16 bits do not hold.
    pub fn long_lines(&mut self) {
        self.text("\n# Counts that a 16-bit number would take for 1, 0 and 1.\n");
        self.text("net 0 1 / 0\n");
        self.even_net(&[(65538, 0)], &[]);
        self.even_net(&[(2, 0)], &[(65536, 0)]);
        self.text("path 0 0\ngrades");
        self.many(&[(65537, 0)]);
        self.text("\npath 0 0\ngrades 3\npath 0 0\n");
        self.text("# Long words.\npath ");
        self.text(&"0".repeat(5000));
        self.text("\npath ");
        self.text(&"0".repeat(5000));
        self.text("1\npath ");
        self.text(&"9".repeat(5000));
        self.text("\n");
        self.text(&"path".repeat(1000));
        self.text("\nkind ");
        self.text(&"margin".repeat(1000));
        self.text("\n# A comment of a million characters comes next.\n");
        let from = self.bytes.len();
        self.text("#");
        while self.bytes.len() - from < 1_000_000 {
            self.text(" net 0 0 / path 0 0 kind margin");
        }
        self.bytes.truncate(from + 1_000_000);
        self.text("\npath 0 0\n# Round and round between two stations.\n");
        self.text("net 0 1 2 / 1 0\ngrades 40000 45000\npath");
        self.text(&" 0 1".repeat(50_000));
        self.text("\npath 0 1 0 1\npath 0 1 0 0 1\n");
        self.text("# A word and a break far beyond place 65,535.\ngrades");
        self.many(&[(70_000, 1)]);
        self.text(" x\npath 0 1\ngrades 1 2\npath");
        self.text(&" 0 1".repeat(35_000));
        self.text(" 1\npath");
        self.text(&" 0 1".repeat(35_000));
        self.text(" 2\n");
        self.text("# A path of a million characters.\npath");
        self.text(&" 0 1".repeat(250_000));
        self.text("\n");
    }
}
