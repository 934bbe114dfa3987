//! The book's calls.

use super::row;
use crate::faults::Fault;
use crate::reading::{count, exactly, grade};
use crate::script::Words;
use crate::site::Site;

pub fn start(site: &mut Site, words: Words) -> Result<String, Fault> {
    let [gateway] = exactly(words, "start takes <gateway>")?;
    site.start(count(gateway)?)?;
    Ok("start ok".to_string())
}

pub fn work(site: &mut Site, words: Words) -> Result<String, Fault> {
    let [allowed] = exactly(words, "work takes <allowed>")?;
    let worked = site.work(count(allowed)?)?;
    Ok(format!("work {} {}", worked.picks, worked.waiting))
}

pub fn regrade(site: &mut Site, words: Words) -> Result<String, Fault> {
    let [link, new] = exactly(words, "regrade takes <link> <grade>")?;
    let (link, new) = (count(link)?, grade(site.kind, new)?);
    let regraded = site.regrade(link, new)?;
    Ok(format!("regrade {} {}", regraded.lost, regraded.new))
}

pub fn ask(site: &mut Site, words: Words) -> Result<String, Fault> {
    let [station] = exactly(words, "ask takes <station>")?;
    let told = site.ask(count(station)?)?;
    Ok(match told.reached {
        Some((label, entry)) => format!("ask {label} {entry} {}", told.waiting),
        None => format!("ask none {}", told.waiting),
    })
}

pub fn route(site: &mut Site, words: Words) -> Result<String, Fault> {
    let [station, places] = exactly(words, "route takes <station> <places>")?;
    let links = site.route(count(station)?, count(places)?)?;
    Ok(row(&format!("route {}:", links.len()), links))
}

#[cfg(test)]
mod tests {
    use crate::tests::{check, check_from};

    /// Links: 0 from 0 to 1, 1 from 0 to 2, 2 from 1 to 3, 3 from 2 to 1, 4 from 2 to 3.
    const ESTATE: &str = "net 0 2 3 5 5 / 1 2 3 1 3\ngrades 4 1 1 2 5\n";

    #[test]
    fn every_list_finds_the_same_labels_in_its_own_number_of_picks() {
        for (list, picks) in [
            ("first-in", 6),
            ("two-ended", 5),
            ("small-label", 4),
            ("threshold 2", 4),
            ("bucket 2 5", 5),
        ] {
            let opening = format!("{ESTATE}list {list}\nstart 0\n");
            check_from(
                &opening,
                "work 10\nlabels\nentries",
                &[
                    &format!("work {picks} 0"),
                    "labels 0 3 1 4",
                    "entries 65534 3 1 2",
                ],
            );
        }
    }

    #[test]
    fn a_worse_link_takes_labels_away_and_work_finds_others() {
        check_from(
            &format!("{ESTATE}start 0\nwork 10\n"),
            "regrade 3 9\nlabels\nentries\nwork 10\nlabels\nentries",
            &[
                "regrade 2 2",
                "labels 0 0 1 0",
                "entries 65534 65535 1 65535",
                "work 4 0",
                "labels 0 4 1 5",
                "entries 65534 0 1 2",
            ],
        );
    }

    #[test]
    fn other_regrades_let_the_tail_wait() {
        // The same grade; a better one; a link that is no entry; a tail that waits; no label.
        check_from(
            &format!("{ESTATE}start 0\nwork 10\n"),
            "regrade 3 2\nwaiting\nregrade 2 0\nregrade 4 9\nregrade 3 1\nwork 9\nlabels\n\
             start 3\nregrade 3 9",
            &[
                "regrade 0 1",
                "waiting 1",
                "regrade 0 1",
                "regrade 0 0",
                "regrade 0 0",
                "work 3 0",
                "labels 0 2 1 2",
                "start ok",
                "regrade 0 0",
            ],
        );
    }

    #[test]
    fn work_stops_where_its_allowance_ends() {
        check(
            "net 0 0 /\nstart 0\nwork 0\nwork 9\nwork 9",
            &["net ok 1 0", "start ok", "work 0 1", "work 1 0", "work 0 0"],
        );
        check_from(
            &format!("{ESTATE}start 0\n"),
            "work 2\nlabels\nask 3\nwork 4\nlabels\nwork 1",
            &[
                "work 2 2",
                "labels 0 4 1 5",
                "ask 5 2 2",
                "work 4 0",
                "labels 0 3 1 4",
                "work 0 0",
            ],
        );
    }

    #[test]
    fn routes_begin_at_the_gateway() {
        check_from(
            &format!("{ESTATE}start 0\nwork 10\n"),
            "route 3 3\nroute 3 2\nroute 1 65535\nroute 0 0\nask 3\nask 0\nstart 3\nask 0\nroute 0 9",
            &[
                "route 3: 1 3 2",
                "refused 12 place 3 layer book",
                "route 2: 1 3",
                "route 0:",
                "ask 4 2 0",
                "ask 0 65534 0",
                "start ok",
                "ask none 1",
                "refused 10 place 0 layer book",
            ],
        );
    }

    #[test]
    fn a_walk_that_misses_the_gateway_is_no_route() {
        check_from(
            &format!("{ESTATE}start 0\nwork 10\n"),
            "poke entry 1 65534\nroute 3 9\nroute 1 9\npoke entry 1 4\nroute 3 9\npoke entry 1 3\n\
             route 3 3\npoke entry 0 7\nroute 3 3\nroute 0 0\npoke entry 0 65535\nroute 3 3",
            &[
                "poke",
                "refused 11 place 0 layer book",
                "refused 11 place 0 layer book",
                "poke",
                "refused 11 place 0 layer book",
                "poke",
                "route 3: 1 3 2",
                "poke",
                "refused 11 place 0 layer book",
                "refused 11 place 0 layer book",
                "poke",
                "refused 11 place 0 layer book",
            ],
        );
    }

    #[test]
    fn each_call_tests_in_its_own_order() {
        let refused = |number| format!("refused {number} place 0 layer book");
        let calls = "start 4\nwork 9\nregrade 5 1\nask 4\nroute 4 0";
        for (memory, numbers) in [
            ("resize grades 4\nresize labels 3\n", [5, 5, 5, 6, 6]),
            ("resize grades 6\n", [5, 5, 5, 8, 8]),
            ("resize labels 5\n", [6, 6, 6, 6, 6]),
            ("resize entries 0\n", [6, 6, 6, 6, 6]),
            ("", [7, 8, 8, 8, 8]),
        ] {
            let expected = numbers.map(refused);
            check_from(
                &format!("{ESTATE}{memory}"),
                calls,
                &expected.iter().map(String::as_str).collect::<Vec<_>>(),
            );
        }
        check_from(
            &format!("{ESTATE}start 0\nresize grades 4\n"),
            "ask 4\nroute 4 0\nroute 3 0\nask 0\nroute 0 0\nresize grades 5\nregrade 5 1",
            &[
                &refused(7),
                &refused(7),
                &refused(10),
                "ask 0 65534 1",
                "route 0:",
                "resize",
                &refused(9),
            ],
        );
    }

    #[test]
    fn a_chance_that_cannot_be_is_refused_before_all_else() {
        check(
            "net 0 1 1 / 1\nkind chance\nresize labels 0\nregrade 9 65537\nregrade 9 65536\nkind margin\n\
             regrade 0 128",
            &[
                "net ok 2 1",
                "kind chance",
                "resize",
                "refused 13 place 0 layer kind",
                "refused 6 place 0 layer book",
                "kind margin",
                "error line 7: word 3 is not a number from -128 to 127",
            ],
        );
    }

    #[test]
    fn no_memory_leads_a_call_astray() {
        // A ring of entries, all of it lost and the gateway with it: nobody is left to enter.
        check_from(
            "net 0 1 2 3 / 1 2 0\ngrades 1 1 1\nstart 0\nwork 9\n",
            "poke entry 0 2\nroute 2 9\nregrade 1 5\nentries\nwork 9\nask 0",
            &[
                "poke",
                "refused 11 place 0 layer book",
                "regrade 3 0",
                "entries 65535 65535 65535",
                "work 0 0",
                "ask none 0",
            ],
        );
        // A station beyond the net, and one without a label, count and do no more.
        check_from(
            "net 0 1 2 3 / 1 2 0\ngrades 1 1 1\nstart 0\n",
            "enter 9\nenter 2\nwork 9\nlabels",
            &["enter new", "enter new", "work 5 0", "labels 0 1 2"],
        );
        // A tail without a label: the number that stands in its place is carried.
        check_from(
            "net 0 0 1 / 0\ngrades 3\nstart 1\nwork 9\n",
            "poke entry 1 65535\npoke label 1 7\nregrade 0 4\nask 0",
            &["poke", "poke", "regrade 1 0", "ask none 0"],
        );
    }

    #[test]
    fn a_station_that_loses_its_label_goes_on_waiting() {
        check_from(
            &format!("{ESTATE}start 0\nwork 1\n"),
            "regrade 0 9\nlabels\nwaiting\nwork 1\nlabels\nwork 9\nlabels",
            &[
                "regrade 1 1",
                "labels 0 0 1 0",
                "waiting 3",
                "work 1 2",
                "labels 0 0 1 0",
                "work 4 0",
                "labels 0 3 1 4",
            ],
        );
    }

    #[test]
    fn a_new_net_or_kind_is_not_started_and_a_new_list_is() {
        check_from(
            &format!("{ESTATE}start 0\nwork 9\n"),
            "list two-ended\ngrades 1 1 1 1 1\nwork 9\nask 3\nkind airtime\nask 3\nstart 0\n\
             net 0 0 /\nask 0",
            &[
                "list two-ended",
                "grades 5",
                "work 0 0",
                "ask 4 2 0",
                "kind airtime",
                "refused 8 place 0 layer book",
                "start ok",
                "net ok 1 0",
                "refused 8 place 0 layer book",
            ],
        );
    }

    #[test]
    fn words_of_the_calls() {
        check_from(
            "net 0 0 /\n",
            "start\nstart 0 0\nwork x y\nregrade 0\nask\nroute 0\nroute 0 0 0\n\
             start -1\nwork 65536\nregrade 65536 x\nregrade 0 x\nask x\nroute x y\nroute 0 y\nchecks 0",
            &[
                "error line 2: start takes <gateway>",
                "error line 3: start takes <gateway>",
                "error line 4: work takes <allowed>",
                "error line 5: regrade takes <link> <grade>",
                "error line 6: ask takes <station>",
                "error line 7: route takes <station> <places>",
                "error line 8: route takes <station> <places>",
                "error line 9: word 2 is not a number from 0 to 65535",
                "error line 10: word 2 is not a number from 0 to 65535",
                "error line 11: word 2 is not a number from 0 to 65535",
                "error line 12: word 3 is not a number from 0 to 4294967295",
                "error line 13: word 2 is not a number from 0 to 65535",
                "error line 14: word 2 is not a number from 0 to 65535",
                "error line 15: word 3 is not a number from 0 to 65535",
                "error line 16: unknown command",
            ],
        );
    }
}
