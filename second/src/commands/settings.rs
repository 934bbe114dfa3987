//! Kind, grades and list of a site, and the grade of a path.

use crate::faults::Fault;
use crate::reading::{self, TOP};
use crate::script::{self, Words};
use crate::site::Site;

pub fn kind(site: &mut Site, words: Words) -> Result<String, Fault> {
    let kind = reading::kind(words)?;
    site.set_kind(kind)?;
    Ok(format!("kind {}", kind.name()))
}

pub fn grades(site: &mut Site, words: Words) -> Result<String, Fault> {
    let kind = site.kind;
    let (low, high) = kind.range();
    let numbers = script::numbers(words, low, high)?;
    site.grades = script::list(numbers.map(move |number| kind.read(number)))?;
    Ok(format!("grades {}", site.grades.len()))
}

pub fn list(site: &mut Site, words: Words) -> Result<String, Fault> {
    let design = reading::list(site.kind, words)?;
    site.set_list(design)?;
    Ok(format!("list {}", design.name()))
}

pub fn path(site: &mut Site, words: Words) -> Result<String, Fault> {
    let links = script::numbers(words, 0, TOP)?;
    let label = site.path_grade(links.map(|link| link as usize))?;
    Ok(format!("path {label}"))
}

#[cfg(test)]
mod tests {
    use crate::tests::check;

    #[test]
    fn words_of_kind() {
        let why = "kind takes one of airtime, chance, margin";
        check(
            "net 0 0 /\nkind\nkind hops\nkind margin margin\nkind margin",
            &[
                "net ok 1 0",
                &format!("error line 2: {why}"),
                &format!("error line 3: {why}"),
                &format!("error line 4: {why}"),
                "kind margin",
            ],
        );
    }

    #[test]
    fn grades_are_read_by_their_kind() {
        check(
            "net 0 1 / 0\ngrades 4294967295\ngrades 4294967296\npath 0\ngrades -1\nkind chance\npath 0\n\
             grades 65537\npath 0\npath 0 0\nkind margin\npath 0\ngrades -128\npath 0\ngrades -129\npath 0",
            &[
                "net ok 1 1",
                "grades 1",
                "error line 3: word 2 is not a number from 0 to 4294967295",
                "path 4294967295",
                "error line 5: word 2 is not a number from 0 to 4294967295",
                "kind chance",
                "path 0",
                "grades 1",
                "path 65536",
                "path 65536",
                "kind margin",
                "path 0",
                "grades 1",
                "path -128",
                "error line 15: word 2 is not a number from -128 to 127",
                "path -128",
            ],
        );
    }

    #[test]
    fn empty_paths_have_the_start_label() {
        check(
            "net 0 0 /\npath\nkind chance\npath\nkind margin\npath",
            &[
                "net ok 1 0",
                "path 0",
                "kind chance",
                "path 65536",
                "kind margin",
                "path 127",
            ],
        );
    }

    #[test]
    fn what_is_no_path() {
        check(
            "net 0 2 3 5 5 / 1 2 3 1 3\ngrades 4 1 1 2 5\npath 0 2\npath 5\npath 1 5\npath 1 2 5\n\
             path 1 4 4\npath 5 x\ngrades 1\npath\npath 5\npath 65536",
            &[
                "net ok 4 5",
                "grades 5",
                "path 5",
                "error line 4: not a path: link 5 is not in the net",
                "error line 5: not a path: link 5 is not in the net",
                "error line 6: not a path: link 2 does not begin where link 1 ends",
                "error line 7: not a path: link 4 does not begin where link 4 ends",
                "error line 8: word 3 is not a number from 0 to 65535",
                "grades 1",
                "error line 10: not a path: 1 grades for 5 links",
                "error line 11: not a path: 1 grades for 5 links",
                "error line 12: word 2 is not a number from 0 to 65535",
            ],
        );
    }

    #[test]
    fn a_new_kind_begins_labels_and_list_anew_and_grades_do_not() {
        check(
            "net 0 1 1 / 0\nlist two-ended\nenter 0\npick\nenter 1\npoke label 1 5\ngrades 7\nkind hops\n\
             enter 0\nkind chance\nwaiting\nenter 1\nenter 0\npick\npoke label 0 65537\n\
             kind margin\nnet 0 0 /\nwaiting",
            &[
                "net ok 2 1",
                "list two-ended",
                "enter new",
                "pick 0",
                "enter new",
                "poke",
                "grades 1",
                "error line 8: kind takes one of airtime, chance, margin",
                "enter new",
                "kind chance",
                "waiting 0",
                "enter new",
                "enter new",
                "pick 1",
                "poke",
                "kind margin",
                "net ok 1 0",
                "waiting 0",
            ],
        );
    }
}
