//! The commands on an open site: each reads the words of its line, has the site do it, and words
//! the answer.

pub mod by_hand;
pub mod calls;
pub mod check;
pub mod memory;
pub mod settings;

use std::fmt::Display;

/// Some words, and numbers after them. No blank stands at the end.
fn row<T: Display>(words: &str, numbers: impl IntoIterator<Item = T>) -> String {
    let mut row = words.to_string();
    for number in numbers {
        row += &format!(" {number}");
    }
    row
}
