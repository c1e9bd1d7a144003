//! The independent second program of Tumequalis.
//!
//! Written from the rules paper (01, "Scope and rules"), the project's list of readings
//! (docs/DECISIONS.md, O1 to O85) and the pages on the raw stream (docs/STREAM.md) and on the
//! catalogue (docs/CATALOGUE.md), and from nothing else, so that it can be held line by line to
//! the proved receiver. It prefers bit strings and plain lists over tables and packed state.

pub mod makers;
pub mod model;
