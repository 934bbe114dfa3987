//! The rules of docs/MODEL.md by brute force: all simple paths are gone through, and lists are
//! plain sets of places. It shares no code with the planner, nor with the generator, and judges
//! whoever answered.

mod grading;
pub mod judge;
mod paths;
mod plan;
mod recall;
mod waiting;

#[cfg(test)]
mod every_plan;
#[cfg(test)]
mod tests;

/// The entry of the gateway, and that of a station without a label.
const OWN: usize = 65_534;
const UNLABELLED: usize = 65_535;
