//! The script as it is written, line by line.

use super::dice::Dice;
use super::rows::{Row, Sort};

pub struct Script {
    pub bytes: Vec<u8>,
    pub dice: Dice,
    /// The rows at random, in their order.
    pub rows: Vec<Row>,
}

impl Script {
    pub fn new(dice: Dice) -> Script {
        Script {
            bytes: Vec::new(),
            dice,
            rows: Vec::new(),
        }
    }

    /// A row at random, which begins with a net.
    pub fn row(&mut self, sort: Sort, write: impl FnOnce(&mut Script)) {
        let begin = self.bytes.len();
        write(self);
        let end = self.bytes.len();
        self.rows.push(Row { sort, begin, end });
    }

    pub fn text(&mut self, text: &str) {
        self.bytes.extend_from_slice(text.as_bytes());
    }

    /// `net` with starts and heads that are each one number many times over.
    pub fn even_net(&mut self, starts: &[(usize, usize)], heads: &[(usize, usize)]) {
        self.text("net");
        self.many(starts);
        self.text(" /");
        self.many(heads);
        self.text("\n");
    }

    /// Pairs of a count and the number written so often.
    pub fn many(&mut self, numbers: &[(usize, usize)]) {
        for &(count, number) in numbers {
            self.text(&format!(" {number}").repeat(count));
        }
    }

    /// A line of these words, at times with other blanks or zeros before a number.
    pub fn line(&mut self, words: &[String]) {
        let odd = self.dice.percent(4);
        if odd {
            let before = self.dice.pick(&["", " ", "\t", "  \r"]);
            self.text(before);
        }
        for (place, word) in words.iter().enumerate() {
            if place > 0 {
                let blank = if odd {
                    self.dice.pick(&[" ", "  ", "\t", " \t ", "\r"])
                } else {
                    " "
                };
                self.text(blank);
            }
            if odd && self.dice.percent(10) && word.bytes().all(|byte| byte.is_ascii_digit()) {
                self.text("000");
            }
            self.text(word);
        }
        if odd {
            let after = self.dice.pick(&["", " ", "\r", "\t\r"]);
            self.text(after);
        }
        self.text("\n");
    }

    /// The words of such a line.
    pub fn words(&mut self, line: &str) {
        let words: Vec<String> = line.split(' ').map(str::to_string).collect();
        self.line(&words);
    }

    /// One of these lines, with one of its bytes another.
    pub fn damaged(&mut self, lines: &[&str]) {
        let mut line = self.dice.pick(lines).as_bytes().to_vec();
        let place = self.dice.below(line.len());
        let byte = self.dice.below(256) as u8;
        line[place] = if byte == b'\n' { 0 } else { byte };
        self.bytes.extend_from_slice(&line);
    }
}
