//! The generator of site scripts: the stored script, always the same, and fresh rows at random by
//! seed and number. It knows the words of a script and finds best plans by itself; of the planner
//! it uses nothing.

mod book_intrusions;
mod book_rows;
mod check_damage;
mod check_rows;
pub mod dice;
mod kind;
mod large_books;
mod large_check_shapes;
mod large_checks;
mod law_rows;
mod lines;
mod list_rows;
mod long_lists;
mod net;
mod path_rows;
mod plan;
pub mod rows;
pub mod script;
pub mod stored;
