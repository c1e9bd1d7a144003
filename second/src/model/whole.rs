//! A whole raw stream at once, with no portions and no hunter: what every division of it must
//! give. Each branch is one sentence of docs/STREAM.md.

use crate::model::frame::{self, MARKER};
use crate::model::stream::is_marker;

/// What a stream gives: its frames, how many octets were passed over, and those that wait.
#[derive(Clone, Debug, Default, PartialEq, Eq)]
pub struct Whole {
    pub frames: Vec<Vec<u8>>,
    pub passed: usize,
    pub waiting: Vec<u8>,
}

pub fn whole(stream: &[u8], k: u8) -> Whole {
    let mut found = Whole::default();
    let mut left = stream;
    loop {
        let Some((four, behind)) = left.split_at_checked(MARKER.len()) else {
            // "At a place with fewer than four octets from there on, those wait."
            break;
        };
        if !is_marker(four, k) {
            // "At one whose four octets are no marker, one octet is passed over."
            found.passed += 1;
            left = &left[1..];
        } else if left.len() < frame::SIZE {
            // "At a marker with fewer than 1,024 octets from there on, they wait, as they came."
            break;
        } else {
            // "At a marker with 1,024 octets or more from there on, these are a frame", "the
            // first four put right".
            let (content, rest) = behind.split_at(frame::SIZE - MARKER.len());
            found.frames.push([&MARKER, content].concat());
            left = rest;
        }
    }
    found.waiting = left.to_vec();
    found
}
