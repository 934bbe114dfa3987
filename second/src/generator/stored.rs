//! The stored script, always the same.

use super::dice::Dice;
use super::lines::{
    book_lines, book_rules, check_lines, check_rules, list_lines, list_rules, opening,
};
use super::script::Script;

/// The examples of the README, and that of docs/SCRIPT.md.
const ESTATE: &str = include_str!("../../../examples/estate.site");
const LISTS: &str = include_str!("../../../examples/lists.site");
const BOOK: &str = include_str!("../../../examples/book.site");
const CHECK: &str = include_str!("../../../examples/check.site");
const EXAMPLE: &str = include_str!("../../../examples/script.site");

/// So many rows are those that the comparison makes anew, of seed 0 and on small nets alone.
const FRESH: u64 = 3800;

pub fn script() -> Script {
    let mut script = Script::new(Dice(0x9e37_79b9_7f4a_7c15));
    script.text(opening::LINES);
    script.text("\n");
    script.text(ESTATE);
    for line in opening::ODD {
        script.bytes.extend_from_slice(line);
    }
    script.bounds();
    script.long_lines();
    script.text("\n# Small nets at random, some of them refused.\n");
    script.small_nets(400);
    script.text("\n# Large nets at random.\n");
    script.large_nets();
    script.text("\n# Small nets again.\n");
    script.small_nets(190);
    script.text(list_lines::LINES);
    script.text(list_rules::LINES);
    script.long_list_lines();
    script.text("\n# Lists at random.\n");
    script.list_rows(5);
    script.text("\n# Lists of few stations for a long time.\n");
    script.long_rows(1400);
    script.text("\n# Lists with all stations that there can be.\n");
    script.full_lists();
    script.text(book_lines::LINES);
    script.text(book_rules::LINES);
    script.long_book_lines();
    script.text("\n# Books at random.\n");
    script.book_rows(23, 22);
    script.text("\n# Books whose memory is written from outside.\n");
    script.intruded_rows(19, 12);
    script.text("\n# Large books.\n");
    script.large_books();
    script.large_ring();
    script.large_star();
    script.long_works(15);
    script.text("\n");
    script.text(LISTS);
    script.text(BOOK);
    script.text(EXAMPLE);
    script.text(CHECK);
    script.text(check_lines::LINES);
    script.text(check_rules::LINES);
    script.text("\n# Checks at random.\n");
    script.check_rows(5, 7);
    script.text("\n# Checks where labels stay the same on the way.\n");
    script.even_checks(11, 24);
    script.text("\n# Checks of large plans.\n");
    script.large_checks();
    script.large_check_shapes();
    script.text("\n# Short rows of all sorts.\n");
    for number in 0..FRESH {
        script.fresh_small_row(0, number);
    }
    script.text("\n# The last line has no line feed.\n");
    script.text("net 0 2 3 5 5 / 1 2 3 1 3\ngrades 4 1 1 2 5\npath 1 3 2");
    script
}
