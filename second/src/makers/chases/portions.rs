//! The same stream in portions of several sizes.

use super::{frame, noise, tried, Row};
use crate::makers::chase_script::ChaseScript;
use crate::makers::raw;
use crate::model::frame::MARKER;

pub const CASES: &[Row] = &[
    (
        "portion-empty",
        "an empty portion, with 0, 1, 3, 4 and 1,023 octets waiting: nothing is taken, and nothing changes",
        empty,
    ),
    ("portion-of-1", "two frames among noise, octet by octet", of_1),
    ("portion-of-3", "the same in portions of 3 octets", of_3),
    ("portion-of-4", "the same in portions of 4 octets", of_4),
    ("portion-of-1023", "the same in portions of 1,023 octets", of_1023),
    ("portion-of-1024", "the same in portions of 1,024 octets", of_1024),
    ("portion-of-1025", "the same in portions of 1,025 octets", of_1025),
    ("portion-of-all", "the same in one portion", of_all),
    (
        "portion-of-many-sizes",
        "the same in portions of 0, 1, 0, 3, 4, 0, 1,023 and what is left",
        of_many,
    ),
    (
        "portion-splits-a-marker",
        "a marker split over portions behind its octets 1, 2 and 3, and behind each of them",
        splits,
    ),
];

/// Noise, a frame with a wrong bit, noise, a frame, and the first two octets of a marker.
fn two_frames() -> Vec<u8> {
    let (noise, first, second) = (noise(15), frame(30, &[13]), frame(31, &[]));
    [&noise[..6], &first, &noise[6..], &second, &MARKER[..2]].concat()
}

fn in_portions(script: &mut ChaseScript, octets: usize) {
    script.begin(1);
    for portion in two_frames().chunks(octets) {
        script.feed(portion);
    }
    script.show();
}

fn of_1(script: &mut ChaseScript) {
    in_portions(script, 1);
}

fn of_3(script: &mut ChaseScript) {
    in_portions(script, 3);
}

fn of_4(script: &mut ChaseScript) {
    in_portions(script, 4);
}

fn of_1023(script: &mut ChaseScript) {
    in_portions(script, 1023);
}

fn of_1024(script: &mut ChaseScript) {
    in_portions(script, 1024);
}

fn of_1025(script: &mut ChaseScript) {
    in_portions(script, 1025);
}

fn of_all(script: &mut ChaseScript) {
    in_portions(script, 8192);
}

fn of_many(script: &mut ChaseScript) {
    script.begin(1);
    let stream = two_frames();
    let mut rest = &stream[..];
    for octets in [0, 1, 0, 3, 4, 0, 1023, rest.len()] {
        let (portion, behind) = rest.split_at(octets.min(rest.len()));
        script.feed(portion);
        script.show();
        rest = behind;
    }
}

fn empty(script: &mut ChaseScript) {
    for waiting in [0, 1, 3, 4, 1023] {
        tried(script, 2, &frame(32, &[1, 2])[..waiting]);
        let _ = script.hunt(&[]);
        script.show();
    }
}

fn splits(script: &mut ChaseScript) {
    let stream = [&noise(5)[..], &raw::marker(&[6, 22]), &[9]].concat();
    for behind in [&[1][..], &[2], &[3], &[1, 2], &[1, 3], &[2, 3], &[1, 2, 3]] {
        script.begin(2);
        let mut from = 0;
        for cut in behind.iter().map(|octets| 5 + octets) {
            script.feed(&stream[from..cut]);
            script.show();
            from = cut;
        }
        script.feed(&stream[from..]);
        script.show();
    }
}
