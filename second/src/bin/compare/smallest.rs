//! Makes a script small that shows a difference.

use crate::sides::Sides;
use std::io;

/// Leaves out lines, many at a time and then one by one, as long as a difference stays.
pub fn script(sides: &Sides, bytes: &[u8]) -> io::Result<Vec<u8>> {
    let mut lines: Vec<&[u8]> = bytes.split_inclusive(|&byte| byte == b'\n').collect();
    if let Some(difference) = sides.differ(bytes)? {
        lines.truncate(difference.line);
    }
    let mut count = lines.len();
    while count > 0 {
        let mut left_out = false;
        let mut end = lines.len();
        while end > 0 {
            let begin = end.saturating_sub(count);
            let fewer = [&lines[..begin], &lines[end..]].concat();
            if sides.differ(&fewer.concat())?.is_some() {
                lines = fewer;
                left_out = true;
            }
            end = begin;
        }
        // Single lines are tried again until none can be left out.
        if count > 1 || !left_out {
            count /= 2;
        }
    }
    Ok(lines.concat())
}
