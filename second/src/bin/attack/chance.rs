//! Scripts made at random: bytes, pieces of lines, lines with any numbers, and right lines that are damaged.

use second::generator::dice::Dice;

/// The first words of the commands.
const COMMANDS: &str = "net kind grades list path start work regrade ask route check labels entries poke resize enter pick empty waiting";

/// Words that a line may have in the place of another.
const WORDS: &str = "airtime chance margin first-in two-ended small-label threshold bucket label entry grade # / - 0 1 2 3 4 5 00 -0 -1 -128 -129 127 128 \
    1023 1024 65534 65535 65536 65537 4294967295 4294967296 99999999999999999999 +1 1.0 \0";

/// What lines are made of beside words.
const SIGNS: &[u8] = b"         \t\r\n\n\n\n\n\n\n\n\0#/-0123456789es";

/// A right line of each sort, but for its numbers N.
const FORMS: &str = "net 0 2 3 5 5 / 1 2 3 1 3,net N N N / N N,kind airtime,kind chance,kind margin,grades N N N N N,\
    list first-in,list two-ended,list small-label,list threshold N,list bucket N N,path N N,path N,path,start N,start N,work N,work N,\
    regrade N N,regrade N N,ask N,route N N,check N,check N,labels,entries,poke label N N,poke entry N N,poke grade N N,\
    resize labels N,resize entries N,resize grades N,enter N,enter N N,pick,pick N,empty,waiting";

const NET: &[u8] = b"net 0 2 3 5 5 / 1 2 3 1 3\ngrades 4 1 1 2 5\n";

/// Dice, and what they choose from.
pub struct Chance<'a> {
    dice: Dice,
    commands: Vec<&'static str>,
    words: Vec<&'static str>,
    forms: Vec<&'static str>,
    /// The lines of a right script.
    lines: &'a [&'a [u8]],
}

impl Chance<'_> {
    pub fn new<'a>(seed: usize, lines: &'a [&'a [u8]]) -> Chance<'a> {
        Chance {
            dice: Dice::of(0, seed as u64),
            commands: COMMANDS.split(' ').collect(),
            words: WORDS.split(' ').chain(COMMANDS.split(' ')).collect(),
            forms: FORMS.split(',').collect(),
            lines,
        }
    }

    /// Bytes of any value, where line feeds and blanks are as frequent as others or far more, and at times the first word of a command.
    pub fn bytes(&mut self) -> Vec<u8> {
        let (often, named) = (self.dice.below(3) * 15, self.dice.below(3) * 4);
        let mut script = self.opening();
        for _ in 0..self.dice.below(600) {
            if self.dice.percent(named) {
                script.push(b'\n');
                script.extend_from_slice(self.dice.pick(&self.commands).as_bytes());
                script.push(b' ');
            }
            script.push(match self.dice.percent(often) {
                true => self.dice.pick(b"\n\n \t\r"),
                false => self.dice.below(256) as u8,
            });
        }
        script
    }

    /// Words, blanks, digits and line feeds, in any order.
    pub fn pieces(&mut self) -> Vec<u8> {
        let mut script = self.opening();
        for _ in 0..self.dice.below(500) {
            match self.dice.below(8) {
                0 => script.extend_from_slice(self.dice.pick(&self.words).as_bytes()),
                1 => {
                    script.push(b'\n');
                    script.extend_from_slice(self.dice.pick(&self.commands).as_bytes());
                    script.push(b' ');
                }
                _ => script.push(self.dice.pick(SIGNS)),
            }
        }
        script
    }

    /// Right lines with any numbers, some of them damaged.
    pub fn forms(&mut self) -> Vec<u8> {
        let mut script = NET.to_vec();
        for _ in 0..self.dice.below(60) {
            let mut line = self.form();
            while self.dice.percent(12) {
                line = self.damaged_line(line);
            }
            script.extend_from_slice(&line);
            script.push(b'\n');
        }
        script
    }

    /// Lines of the right script, from a net on, some of which are damaged, left out or doubled; it may end anywhere.
    pub fn damaged(&mut self) -> Vec<u8> {
        let lines = self.lines;
        let mut from = self.dice.below(lines.len());
        while from > 0 && !lines[from].starts_with(b"net ") {
            from -= 1;
        }
        let count = self.dice.below(60) + 2;
        let share = self.dice.pick(&[3, 10, 30]);
        let mut script = Vec::new();
        for &line in lines[from..].iter().take(count) {
            // Long lines have attacks of their own.
            let mut line = line[..line.len().min(3000)].to_vec();
            while self.dice.percent(share) {
                line = self.damaged_line(line);
            }
            line.push(b'\n');
            let times = match self.dice.percent(share) {
                true => self.dice.pick(&[0, 2]),
                false => 1,
            };
            script.extend_from_slice(&line.repeat(times));
        }
        if self.dice.percent(30) {
            script.truncate(self.dice.below(script.len()));
        }
        script
    }

    /// A net, or nothing.
    fn opening(&mut self) -> Vec<u8> {
        match self.dice.percent(70) {
            true => NET.to_vec(),
            false => Vec::new(),
        }
    }

    fn form(&mut self) -> Vec<u8> {
        let mut line = Vec::new();
        for part in self.dice.pick(&self.forms).split_inclusive('N') {
            line.extend_from_slice(part.trim_end_matches('N').as_bytes());
            if part.ends_with('N') {
                let number = match self.dice.percent(80) {
                    true => self.dice.below(6).to_string(),
                    false => self.dice.pick(&self.words).to_string(),
                };
                line.extend_from_slice(number.as_bytes());
            }
        }
        line
    }

    fn damaged_line(&mut self, line: Vec<u8>) -> Vec<u8> {
        match self.dice.percent(50) {
            true => self.damaged_words(&line),
            false => self.damaged_bytes(line),
        }
    }

    fn damaged_words(&mut self, line: &[u8]) -> Vec<u8> {
        let mut words: Vec<&[u8]> = line.split(|&byte| byte == b' ').collect();
        let (one, other) = (self.dice.below(words.len()), self.dice.below(words.len()));
        match self.dice.below(5) {
            0 => drop(words.remove(one)),
            1 => words.insert(one, words[other]),
            2 => words.swap(one, other),
            3 => words[one] = self.dice.pick(&self.words).as_bytes(),
            _ => words.truncate(one),
        }
        words.join(&b' ')
    }

    fn damaged_bytes(&mut self, mut line: Vec<u8>) -> Vec<u8> {
        if line.is_empty() {
            return vec![self.dice.below(256) as u8];
        }
        let (one, other) = (self.dice.below(line.len()), self.dice.below(line.len()));
        match self.dice.below(5) {
            0 => drop(line.remove(one)),
            1 => line.insert(one, line[other]),
            2 => line.swap(one, other),
            3 => line[one] = self.dice.below(256) as u8,
            _ => line[one] ^= 1 << self.dice.below(8),
        }
        line
    }
}
