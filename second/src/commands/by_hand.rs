//! The candidate list by hand.

use crate::faults::Fault;
use crate::lists::Entered;
use crate::reading::{self, exactly};
use crate::script::Words;
use crate::site::Site;

pub fn enter(site: &mut Site, words: Words) -> Result<String, Fault> {
    let (station, count) = reading::enter(words)?;
    let answer = match site.enter(station, count)? {
        Entered::New => "enter new",
        Entered::Waiting => "enter waiting",
    };
    Ok(answer.to_string())
}

pub fn pick(site: &mut Site, words: Words) -> Result<String, Fault> {
    let count = reading::pick(words)?;
    Ok(match site.pick(count) {
        Some(station) => format!("pick {station}"),
        None => "pick none".to_string(),
    })
}

pub fn empty(site: &mut Site, words: Words) -> Result<String, Fault> {
    let [] = exactly(words, "empty takes no words")?;
    site.list.empty();
    Ok("empty".to_string())
}

pub fn waiting(site: &mut Site, words: Words) -> Result<String, Fault> {
    let [] = exactly(words, "waiting takes no words")?;
    Ok(format!("waiting {}", site.list.waiting()))
}

#[cfg(test)]
mod tests {
    use crate::tests::check;

    #[test]
    fn lists_wait_and_pick() {
        check(
            "net 0 0 0 0 /\npick\nenter 2\nenter 0\nenter 2\nwaiting\npick\nwaiting\nempty\nwaiting\n\
             list two-ended\nenter 1\nlist small-label\nwaiting\nlist threshold 3\nlist bucket 1 63",
            &[
                "net ok 3 0",
                "pick none",
                "enter new",
                "enter new",
                "enter waiting",
                "waiting 2",
                "pick 2",
                "waiting 1",
                "empty",
                "waiting 0",
                "list two-ended",
                "enter new",
                "list small-label",
                "waiting 0",
                "list threshold",
                "list bucket",
            ],
        );
    }

    #[test]
    fn labels_are_poked_and_handed_over() {
        check(
            "net 0 0 0 /\npoke label 1 4294967295\npoke label 2 0\nlist threshold 0\n\
             enter 1 1\nenter 0 9\nenter 1 2\npick\nenter 1 2\npick\npick 0",
            &[
                "net ok 2 0",
                "poke",
                "error line 3: there are 2 labels",
                "list threshold",
                "enter new",
                "enter new",
                "enter waiting",
                "pick 1",
                "enter new",
                "pick 0",
                "pick 1",
            ],
        );
    }

    #[test]
    fn a_refused_list_and_a_refused_station_change_nothing() {
        check(
            "net 0 0 /\nkind chance\nenter 7\nlist threshold 65537\nlist bucket 0 0\nlist bucket 2 128\n\
             enter 1024\nenter 1023\nwaiting\npick\npick\npick",
            &[
                "net ok 1 0",
                "kind chance",
                "enter new",
                "refused 13 place 0 layer kind",
                "refused 15 place 0 layer list",
                "refused 15 place 0 layer list",
                "refused 14 place 0 layer list",
                "enter new",
                "waiting 2",
                "pick 7",
                "pick 1023",
                "pick none",
            ],
        );
    }

    #[test]
    fn shapes_of_the_lines_about_lists() {
        let shape = "list takes first-in, two-ended, small-label, threshold <step> or bucket <width> <span>";
        check(
            "pick x y\nnet 0 0 /\nlist\nlist bucket x\nlist bucket x y\nenter\nenter x\nenter 1 x\npick 1 2\n\
             pick -1\nempty x\nwaiting 0\nlabel 0\npoke label 0\npoke labels 0 0\npoke label x y\n\
             poke label 1 -1\npoke label 1 0",
            &[
                "error line 1: no net yet",
                "net ok 1 0",
                &format!("error line 3: {shape}"),
                &format!("error line 4: {shape}"),
                "error line 5: word 3 is not a number from 0 to 4294967295",
                "error line 6: enter takes <station> [handed]",
                "error line 7: word 2 is not a number from 0 to 65535",
                "error line 8: word 3 is not a number from 0 to 65535",
                "error line 9: pick takes [handed]",
                "error line 10: word 2 is not a number from 0 to 65535",
                "error line 11: empty takes no words",
                "error line 12: waiting takes no words",
                "error line 13: unknown command",
                "error line 14: poke takes label, entry or grade, then <index> <value>",
                "error line 15: poke takes label, entry or grade, then <index> <value>",
                "error line 16: word 3 is not a number from 0 to 65535",
                "error line 17: word 4 is not a number from 0 to 4294967295",
                "error line 18: there are 1 labels",
            ],
        );
    }
}
