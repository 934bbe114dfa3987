//! What the words after each command say. The shape of a line is tested before its numbers.

use crate::faults::{Fault, Why};
use crate::kinds::Kind;
use crate::lists::Design;
use crate::memory::Part;
use crate::net::Net;
use crate::script::{self, Word, Words};

/// The highest station, link, start, head or count that a script can write.
pub const TOP: i64 = 65535;
/// The highest rank.
const TOP_RANK: i64 = 4_294_967_295;

pub fn net(words: Words) -> Result<Net, Fault> {
    let slash = words
        .clone()
        .find(|word| word.bytes == b"/")
        .map(|word| word.place);
    // Without a slash all words are starts, and a wrong one is told first.
    let starts = words
        .clone()
        .take_while(move |word| Some(word.place) != slash);
    let starts = script::numbers(starts, 0, TOP)?;
    let slash = slash.ok_or(Why::NoSlash)?;
    let heads = words.skip_while(move |word| word.place <= slash);
    let heads = script::numbers(heads, 0, TOP)?;
    let starts = script::list(starts.map(|start| start as usize))?;
    let heads = script::list(heads.map(|head| head as usize))?;
    Ok(Net::new(starts, heads)?)
}

pub fn kind(words: Words) -> Result<Kind, Why> {
    let usage = "kind takes one of airtime, chance, margin";
    let [name] = exactly(words, usage)?;
    Kind::named(name.bytes).ok_or(Why::Usage(usage))
}

const LIST: &str =
    "list takes first-in, two-ended, small-label, threshold <step> or bucket <width> <span>";

pub fn list(kind: Kind, mut words: Words) -> Result<Design, Why> {
    let name = words.next().ok_or(Why::Usage(LIST))?;
    match (name.bytes, words.next(), words.next(), words.next()) {
        (b"first-in", None, _, _) => Ok(Design::FirstIn),
        (b"two-ended", None, _, _) => Ok(Design::TwoEnded),
        (b"small-label", None, _, _) => Ok(Design::SmallLabel),
        (b"threshold", Some(step), None, _) => Ok(Design::Threshold {
            step: grade(kind, step)?,
        }),
        (b"bucket", Some(width), Some(span), None) => Ok(Design::Bucket {
            width: width.number(0, TOP_RANK)?,
            span: span.number(0, TOP_RANK)?,
        }),
        _ => Err(Why::Usage(LIST)),
    }
}

/// The station, and how many labels are handed over; without a number all are.
pub fn enter(mut words: Words) -> Result<(usize, Option<usize>), Why> {
    match (words.next(), words.next(), words.next()) {
        (Some(station), handed, None) => Ok((count(station)?, handed.map(count).transpose()?)),
        _ => Err(Why::Usage("enter takes <station> [handed]")),
    }
}

/// How many labels are handed over; without a number all are.
pub fn pick(mut words: Words) -> Result<Option<usize>, Why> {
    match (words.next(), words.next()) {
        (handed, None) => handed.map(count).transpose(),
        _ => Err(Why::Usage("pick takes [handed]")),
    }
}

/// A part of memory, an index in it and the new value there.
pub fn poke(kind: Kind, words: Words) -> Result<(Part, usize, i64), Why> {
    let usage = "poke takes label, entry or grade, then <index> <value>";
    let [part, index, value] = exactly(words, usage)?;
    let part = Part::of_one(part.bytes).ok_or(Why::Usage(usage))?;
    let index = count(index)?;
    let value = match part {
        Part::Labels | Part::Grades => kind.read(grade(kind, value)?),
        Part::Entries => value.number(0, TOP)?,
    };
    Ok((part, index, value))
}

/// A part of memory, and how many numbers it is to have.
pub fn resize(words: Words) -> Result<(Part, usize), Why> {
    let usage = "resize takes labels, entries or grades, then <count>";
    let [part, size] = exactly(words, usage)?;
    let part = Part::named(part.bytes).ok_or(Why::Usage(usage))?;
    Ok((part, count(size)?))
}

/// Just so many words, else the usage.
pub fn exactly<'a, const N: usize>(
    words: Words<'a>,
    usage: &'static str,
) -> Result<[Word<'a>; N], Why> {
    let words: Vec<Word> = words.take(N + 1).collect();
    words.try_into().map_err(|_| Why::Usage(usage))
}

/// A station, a link, an entry or a count.
pub fn count(word: Word) -> Result<usize, Why> {
    Ok(word.number(0, TOP)? as usize)
}

/// A number that a list of grades may hold. What grade it is depends on its use.
pub fn grade(kind: Kind, word: Word) -> Result<i64, Why> {
    let (low, high) = kind.range();
    word.number(low, high)
}

#[cfg(test)]
mod tests {
    use super::*;

    fn not_a_number(place: usize, high: i64) -> Why {
        Why::NotANumber {
            place,
            low: 0,
            high,
        }
    }

    #[test]
    fn lists_have_exactly_their_words() {
        let list = |words: &'static [u8]| list(Kind::Airtime, Words::of(words));
        assert_eq!(list(b"first-in"), Ok(Design::FirstIn));
        assert_eq!(list(b"two-ended"), Ok(Design::TwoEnded));
        assert_eq!(list(b"small-label"), Ok(Design::SmallLabel));
        let step = 4294967295;
        assert_eq!(
            list(b"threshold 4294967295"),
            Ok(Design::Threshold { step })
        );
        let (width, span) = (2, 4294967295);
        assert_eq!(
            list(b"bucket 2 4294967295"),
            Ok(Design::Bucket { width, span })
        );
        for words in [
            &b""[..],
            b"first",
            b"First-in",
            b"first-in 1",
            b"two-ended x",
            b"small-label 1 2",
            b"threshold",
            b"threshold x y",
            b"bucket",
            b"bucket x",
            b"bucket 1 2 x",
        ] {
            assert_eq!(list(words), Err(Why::Usage(LIST)), "{words:?}");
        }
        // No command stands before these words, so the name is word 1.
        assert_eq!(list(b"threshold -1"), Err(not_a_number(2, 4294967295)));
        assert_eq!(list(b"bucket x y"), Err(not_a_number(2, 4294967295)));
        assert_eq!(list(b"bucket 1 y"), Err(not_a_number(3, 4294967295)));
    }

    #[test]
    fn steps_are_read_by_the_kind() {
        let step = |kind, words: &'static [u8]| list(kind, Words::of(words));
        assert_eq!(
            step(Kind::Margin, b"threshold -128"),
            Ok(Design::Threshold { step: -128 })
        );
        assert!(step(Kind::Margin, b"threshold 128").is_err());
        // Not cut to 65536: it is to be refused.
        assert_eq!(
            step(Kind::Chance, b"threshold 65537"),
            Ok(Design::Threshold { step: 65537 })
        );
    }

    #[test]
    fn pokes_are_read_by_their_part_and_the_kind() {
        use Part::{Entries, Grades, Labels};
        let poke = |kind, words: &'static [u8]| poke(kind, Words::of(words));
        assert_eq!(poke(Kind::Margin, b"label 7 -128"), Ok((Labels, 7, -128)));
        assert_eq!(poke(Kind::Chance, b"label 7 65537"), Ok((Labels, 7, 65536)));
        assert_eq!(
            poke(Kind::Airtime, b"label 7 65537"),
            Ok((Labels, 7, 65537))
        );
        assert_eq!(poke(Kind::Chance, b"grade 7 65537"), Ok((Grades, 7, 65536)));
        assert_eq!(poke(Kind::Margin, b"grade 7 -1"), Ok((Grades, 7, -1)));
        assert_eq!(
            poke(Kind::Margin, b"entry 7 65535"),
            Ok((Entries, 7, 65535))
        );
        let words = b"label 65536 x";
        assert_eq!(poke(Kind::Chance, words), Err(not_a_number(2, 65535)));
        let words = b"grade 65535 -1";
        assert_eq!(poke(Kind::Chance, words), Err(not_a_number(3, 4294967295)));
        let words = b"entry 65535 -1";
        assert_eq!(poke(Kind::Margin, words), Err(not_a_number(3, 65535)));
        let usage = Why::Usage("poke takes label, entry or grade, then <index> <value>");
        for words in [
            &b""[..],
            b"label",
            b"label 1",
            b"labels 1 2",
            b"x y z",
            b"label x 2 3",
        ] {
            assert_eq!(poke(Kind::Airtime, words).as_ref(), Err(&usage));
        }
    }

    #[test]
    fn what_is_resized() {
        let resize = |words: &'static [u8]| resize(Words::of(words));
        assert_eq!(resize(b"labels 0"), Ok((Part::Labels, 0)));
        assert_eq!(resize(b"entries 65535"), Ok((Part::Entries, 65535)));
        assert_eq!(resize(b"grades 7"), Ok((Part::Grades, 7)));
        assert_eq!(resize(b"grades 65536"), Err(not_a_number(2, 65535)));
        let usage = Why::Usage("resize takes labels, entries or grades, then <count>");
        for words in [&b""[..], b"labels", b"label 1", b"x y", b"labels x 2"] {
            assert_eq!(resize(words).as_ref(), Err(&usage));
        }
    }

    #[test]
    fn stations_and_what_is_handed_over() {
        let enter = |words: &'static [u8]| enter(Words::of(words));
        assert_eq!(enter(b"65535"), Ok((65535, None)));
        assert_eq!(enter(b"3 65535"), Ok((3, Some(65535))));
        let usage = Why::Usage("enter takes <station> [handed]");
        assert_eq!(enter(b"").as_ref(), Err(&usage));
        assert_eq!(enter(b"x 2 3").as_ref(), Err(&usage));
        assert_eq!(enter(b"65536 x"), Err(not_a_number(1, 65535)));
        assert_eq!(enter(b"3 65536"), Err(not_a_number(2, 65535)));
        let pick = |words: &'static [u8]| pick(Words::of(words));
        assert_eq!(pick(b""), Ok(None));
        assert_eq!(pick(b"0"), Ok(Some(0)));
        assert_eq!(pick(b"x y"), Err(Why::Usage("pick takes [handed]")));
        assert_eq!(pick(b"65536"), Err(not_a_number(1, 65535)));
    }

    #[test]
    fn so_many_words_and_no_others() {
        let usage = Why::Usage("work takes <allowed>");
        let one = |words: &'static [u8]| exactly(Words::of(words), "work takes <allowed>");
        assert_eq!(one(b" 7\t").map(|[word]| word.bytes), Ok(&b"7"[..]));
        assert_eq!(one(b" \t").map(|[_]| ()).as_ref(), Err(&usage));
        assert_eq!(one(b"x y").map(|[_]| ()).as_ref(), Err(&usage));
        assert_eq!(exactly(Words::of(b" \t"), "labels takes no words"), Ok([]));
    }
}
