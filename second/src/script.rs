//! Lines, words and numbers of a script. All of it works on bytes: a line need not be text.

use crate::faults::Why;
use std::io::{self, BufRead, ErrorKind};

/// One line of the script, without its line feed.
pub struct Line<'a> {
    /// Counted from 1 over all lines.
    pub number: u64,
    pub bytes: &'a [u8],
    /// False if memory ran out, and the bytes are only the line's beginning.
    pub whole: bool,
}

pub struct Lines<R> {
    input: R,
    number: u64,
    bytes: Vec<u8>,
}

impl<R: BufRead> Lines<R> {
    pub fn new(input: R) -> Lines<R> {
        Lines {
            input,
            number: 0,
            bytes: Vec::new(),
        }
    }

    /// The next line, or none at the end of the input.
    pub fn read(&mut self) -> io::Result<Option<Line<'_>>> {
        self.bytes.clear();
        let mut begun = false;
        let mut whole = true;
        loop {
            let buffer = match self.input.fill_buf() {
                Ok(buffer) => buffer,
                Err(error) if error.kind() == ErrorKind::Interrupted => continue,
                Err(error) => return Err(error),
            };
            if buffer.is_empty() {
                break;
            }
            begun = true;
            let feed = buffer.iter().position(|&byte| byte == b'\n');
            let part = &buffer[..feed.unwrap_or(buffer.len())];
            // Not extend alone: it would end the program where memory does.
            whole = whole && self.bytes.try_reserve(part.len()).is_ok();
            if whole {
                self.bytes.extend_from_slice(part);
            }
            let used = part.len() + usize::from(feed.is_some());
            self.input.consume(used);
            if feed.is_some() {
                break;
            }
        }
        if !begun {
            return Ok(None);
        }
        self.number += 1;
        Ok(Some(Line {
            number: self.number,
            bytes: &self.bytes,
            whole,
        }))
    }
}

#[derive(Clone, Copy, Debug, PartialEq)]
pub struct Word<'a> {
    /// Counted from 1 over the words of the line.
    pub place: usize,
    pub bytes: &'a [u8],
}

impl Word<'_> {
    /// The word as a number in the range. Only a range that reaches below 0 allows a `-`.
    pub fn number(&self, low: i64, high: i64) -> Result<i64, Why> {
        let fault = Why::NotANumber {
            place: self.place,
            low,
            high,
        };
        let (negative, digits) = match self.bytes {
            [b'-', digits @ ..] if low < 0 => (true, digits),
            digits => (false, digits),
        };
        if digits.is_empty() {
            return Err(fault);
        }
        let mut size: i64 = 0;
        for &digit in digits {
            if !digit.is_ascii_digit() {
                return Err(fault);
            }
            // A number stuck at the top of i64 lies outside every range.
            size = size
                .saturating_mul(10)
                .saturating_add(i64::from(digit - b'0'));
        }
        let number = if negative { -size } else { size };
        if low <= number && number <= high {
            Ok(number)
        } else {
            Err(fault)
        }
    }
}

/// The words of a line, from left to right.
#[derive(Clone)]
pub struct Words<'a> {
    rest: &'a [u8],
    place: usize,
}

impl<'a> Words<'a> {
    pub fn of(line: &'a [u8]) -> Words<'a> {
        Words {
            rest: line,
            place: 0,
        }
    }
}

fn is_blank(byte: u8) -> bool {
    matches!(byte, 9 | 13 | 32)
}

impl<'a> Iterator for Words<'a> {
    type Item = Word<'a>;

    fn next(&mut self) -> Option<Word<'a>> {
        let begin = self.rest.iter().position(|&byte| !is_blank(byte))?;
        let rest = &self.rest[begin..];
        let end = rest
            .iter()
            .position(|&byte| is_blank(byte))
            .unwrap_or(rest.len());
        let (bytes, rest) = rest.split_at(end);
        self.rest = rest;
        self.place += 1;
        Some(Word {
            place: self.place,
            bytes,
        })
    }
}

/// Tests that all words are numbers in the range, and gives them.
pub fn numbers<'a>(
    words: impl Iterator<Item = Word<'a>> + Clone + 'a,
    low: i64,
    high: i64,
) -> Result<impl Iterator<Item = i64> + Clone + 'a, Why> {
    for word in words.clone() {
        word.number(low, high)?;
    }
    Ok(words.filter_map(move |word| word.number(low, high).ok()))
}

/// Collects values, with an answer of its own where memory ends.
pub fn list<T>(values: impl Iterator<Item = T> + Clone) -> Result<Vec<T>, Why> {
    let mut list = Vec::new();
    list.try_reserve_exact(values.clone().count())
        .map_err(|_| Why::OutOfMemory)?;
    list.extend(values);
    Ok(list)
}

#[cfg(test)]
mod tests {
    use super::*;

    fn words(line: &[u8]) -> Vec<&[u8]> {
        Words::of(line).map(|word| word.bytes).collect()
    }

    fn number(bytes: &[u8], low: i64, high: i64) -> Option<i64> {
        Word { place: 1, bytes }.number(low, high).ok()
    }

    #[test]
    fn lines_are_counted_and_the_last_needs_no_feed() {
        let mut lines = Lines::new(&b"a\n\nb\r\n\xff\x00"[..]);
        let mut found = Vec::new();
        while let Some(line) = lines.read().unwrap() {
            assert!(line.whole);
            found.push((line.number, line.bytes.to_vec()));
        }
        let expected: [(u64, &[u8]); 4] = [(1, b"a"), (2, b""), (3, b"b\r"), (4, b"\xff\x00")];
        assert_eq!(found, expected.map(|(n, bytes)| (n, bytes.to_vec())));
    }

    #[test]
    fn nothing_after_the_last_feed_is_no_line() {
        let mut lines = Lines::new(&b"\n"[..]);
        assert_eq!(lines.read().unwrap().map(|line| line.number), Some(1));
        assert!(lines.read().unwrap().is_none());
        assert!(Lines::new(&b""[..]).read().unwrap().is_none());
    }

    #[test]
    fn lines_longer_than_the_buffer() {
        let script = [&[b'x'; 1000][..], b"\n", &[b'y'; 1000][..]].concat();
        let mut lines = Lines::new(io::BufReader::with_capacity(7, &script[..]));
        assert_eq!(lines.read().unwrap().unwrap().bytes, [b'x'; 1000]);
        assert_eq!(lines.read().unwrap().unwrap().bytes, [b'y'; 1000]);
        assert!(lines.read().unwrap().is_none());
    }

    #[test]
    fn words_are_parted_by_three_blanks_only() {
        assert_eq!(words(b" \ta\rb  c/ \r"), [&b"a"[..], b"b", b"c/"]);
        assert_eq!(words(b"a\x0bb\x0cc\xa0d\x00"), [b"a\x0bb\x0cc\xa0d\x00"]);
        assert!(words(b" \t\r ").is_empty());
        assert!(words(b"").is_empty());
        assert_eq!(
            Words::of(b" a b")
                .map(|word| word.place)
                .collect::<Vec<_>>(),
            [1, 2]
        );
    }

    #[test]
    fn numbers_have_digits_only() {
        for bytes in [
            &b""[..],
            b"-",
            b"+1",
            b"--1",
            b"1x",
            b"x1",
            b"1-",
            b"0x1",
            b"1.0",
            b"\xb2",
            b"1\x00",
        ] {
            assert_eq!(number(bytes, -128, 127), None, "{bytes:?}");
        }
        assert_eq!(number(b"007", 0, 65535), Some(7));
        assert_eq!(number(&[b'0'; 1000], 0, 65535), Some(0));
        assert_eq!(number(b"-0", 0, 65535), None);
        assert_eq!(number(b"-0", -128, 127), Some(0));
        assert_eq!(number(b"-007", -128, 127), Some(-7));
    }

    #[test]
    fn numbers_stay_in_their_range() {
        assert_eq!(number(b"65535", 0, 65535), Some(65535));
        assert_eq!(number(b"65536", 0, 65535), None);
        assert_eq!(number(b"4294967295", 0, 4294967295), Some(4294967295));
        assert_eq!(number(b"4294967296", 0, 4294967295), None);
        assert_eq!(number(b"-128", -128, 127), Some(-128));
        assert_eq!(number(b"-129", -128, 127), None);
        assert_eq!(number(b"127", -128, 127), Some(127));
        assert_eq!(number(b"128", -128, 127), None);
        for bytes in [
            &b"99999999999999999999999"[..],
            b"18446744073709551616",
            b"-99999999999999999999999",
        ] {
            assert_eq!(number(bytes, 0, 4294967295), None);
            assert_eq!(number(bytes, -128, 127), None);
        }
    }

    #[test]
    fn the_first_wrong_word_is_named() {
        let fault = numbers(Words::of(b"1 2 x 70000"), 0, 65535).err();
        assert_eq!(
            fault,
            Some(Why::NotANumber {
                place: 3,
                low: 0,
                high: 65535
            })
        );
        let values = numbers(Words::of(b"1 2"), 0, 65535).unwrap();
        assert_eq!(list(values), Ok(vec![1, 2]));
    }
}
