//! Memory, read and written from outside.

use super::row;
use crate::faults::Fault;
use crate::reading::{self, exactly};
use crate::script::Words;
use crate::site::Site;

pub fn labels(site: &mut Site, words: Words) -> Result<String, Fault> {
    let [] = exactly(words, "labels takes no words")?;
    Ok(row("labels", &site.labels))
}

pub fn entries(site: &mut Site, words: Words) -> Result<String, Fault> {
    let [] = exactly(words, "entries takes no words")?;
    Ok(row("entries", &site.entries))
}

pub fn poke(site: &mut Site, words: Words) -> Result<String, Fault> {
    let (part, index, value) = reading::poke(site.kind, words)?;
    site.poke(part, index, value)?;
    Ok("poke".to_string())
}

pub fn resize(site: &mut Site, words: Words) -> Result<String, Fault> {
    let (part, count) = reading::resize(words)?;
    site.resize(part, count)?;
    Ok("resize".to_string())
}

#[cfg(test)]
mod tests {
    use crate::tests::check_from;

    #[test]
    fn a_new_book() {
        for (kind, labels) in [
            ("airtime", "labels 0 0"),
            ("chance", "labels 65536 65536"),
            ("margin", "labels 127 127"),
        ] {
            check_from(
                &format!("net 0 0 0 /\nkind {kind}\n"),
                "labels\nentries",
                &[labels, "entries 65535 65535"],
            );
        }
    }

    #[test]
    fn parts_are_cut_and_filled() {
        check_from(
            "net 0 1 1 / 1\nkind chance\n",
            "poke label 0 5\npoke entry 0 6\npoke grade 0 70000\nresize labels 1\nresize entries 1\n\
             labels\nentries\nresize labels 3\nresize entries 3\nlabels\nentries\npath 0\n\
             resize grades 0\npath 0\nresize grades 1\npath 0\nresize labels 0\nresize entries 0\n\
             labels\nentries",
            &[
                "poke",
                "poke",
                "poke",
                "resize",
                "resize",
                "labels 5",
                "entries 6",
                "resize",
                "resize",
                "labels 5 65536 65536",
                "entries 6 65535 65535",
                "path 65536",
                "resize",
                "error line 16: not a path: 0 grades for 1 links",
                "resize",
                "path 0",
                "resize",
                "resize",
                "labels",
                "entries",
            ],
        );
    }

    #[test]
    fn pokes_stay_within_their_part() {
        check_from(
            "net 0 1 1 / 1\n",
            "resize labels 3\npoke label 2 1\npoke label 3 1\npoke entry 1 1\npoke entry 2 1\n\
             poke grade 0 1\npoke grade 1 1\nresize grades 0\npoke grade 0 0",
            &[
                "resize",
                "poke",
                "error line 4: there are 3 labels",
                "poke",
                "error line 6: there are 2 entries",
                "poke",
                "error line 8: there are 1 grades",
                "resize",
                "error line 10: there are 0 grades",
            ],
        );
    }

    #[test]
    fn words_of_the_lines_about_memory() {
        let poke = "poke takes label, entry or grade, then <index> <value>";
        let resize = "resize takes labels, entries or grades, then <count>";
        check_from(
            "net 0 0 /\n",
            "labels 0\nentries x\npoke entries 0 0\npoke grade x\npoke entry x y\npoke entry 0 65536\n\
             poke entry 9 x\nresize\nresize label 1\nresize grades 1 2\nresize grades -1",
            &[
                "error line 2: labels takes no words",
                "error line 3: entries takes no words",
                &format!("error line 4: {poke}"),
                &format!("error line 5: {poke}"),
                "error line 6: word 3 is not a number from 0 to 65535",
                "error line 7: word 4 is not a number from 0 to 65535",
                "error line 8: word 4 is not a number from 0 to 65535",
                &format!("error line 9: {resize}"),
                &format!("error line 10: {resize}"),
                &format!("error line 11: {resize}"),
                "error line 12: word 3 is not a number from 0 to 65535",
            ],
        );
    }
}
