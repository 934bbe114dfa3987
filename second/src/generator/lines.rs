//! Lines written by hand. They are data: the files below hold one text each, and are as long as
//! that.

pub mod book_lines;
pub mod book_rules;
pub mod check_lines;
pub mod check_rules;
pub mod list_lines;
pub mod list_rules;
pub mod opening;
