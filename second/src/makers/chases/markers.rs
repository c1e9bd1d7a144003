//! What a marker is: wrong bits against k, on both sides of the line, and which marker is taken.

use super::{frame, noise, tried, Row};
use crate::makers::chase_script::ChaseScript;
use crate::makers::raw;
use crate::model::frame::MARKER;

pub const CASES: &[Row] = &[
    (
        "marker-before-a-marker",
        "the first 1, 2 or 3 octets of a marker before a whole one: 1A CF FC 1A is one with k = 3, and the earliest is taken",
        before_a_marker,
    ),
    (
        "marker-each-bit",
        "each of the 32 bits wrong alone, with k = 0 and k = 1",
        each_bit,
    ),
    ("marker-k-0", "k = 0: 0 to 4 wrong bits in each octet of the marker", k_0),
    ("marker-k-1", "k = 1: 0 to 4 wrong bits in each octet of the marker", k_1),
    ("marker-k-2", "k = 2: 0 to 4 wrong bits in each octet of the marker", k_2),
    ("marker-k-3", "k = 3: 0 to 4 wrong bits in each octet of the marker", k_3),
    (
        "marker-overlap",
        "1A CF FC 1D CF FC 1D: the marker overlaps itself at a shift of three octets with k = 3; the earliest is taken, the later one where the first has 4 wrong bits",
        overlap,
    ),
    (
        "marker-put-right",
        "a frame's marker of 0 to 3 wrong bits is \"put right\" in the buffer, whose check is the same",
        put_right,
    ),
    (
        "marker-spread",
        "1 to 4 wrong bits, one in each octet, and all 32",
        spread,
    ),
    (
        "marker-waits-as-it-came",
        "a marker with wrong bits waits \"as they came\", and is put right in the frame alone",
        waits,
    ),
];

/// The first, or the last, so many bits of an octet of the marker.
fn bits_of(octet: usize, number: usize) -> [Vec<usize>; 2] {
    let first = (octet * 8..).take(number).collect();
    let last = (octet * 8..octet * 8 + 8).rev().take(number).collect();
    [first, last]
}

fn wrong_bits(script: &mut ChaseScript, k: u8) {
    tried(script, k, &raw::marker(&[]));
    for octet in 0..MARKER.len() {
        for number in 1..=4 {
            for wrong in bits_of(octet, number) {
                tried(script, k, &raw::marker(&wrong));
            }
        }
    }
}

fn k_0(script: &mut ChaseScript) {
    wrong_bits(script, 0);
}

fn k_1(script: &mut ChaseScript) {
    wrong_bits(script, 1);
}

fn k_2(script: &mut ChaseScript) {
    wrong_bits(script, 2);
}

fn k_3(script: &mut ChaseScript) {
    wrong_bits(script, 3);
}

fn each_bit(script: &mut ChaseScript) {
    for bit in 0..32 {
        for k in [0, 1] {
            tried(script, k, &raw::marker(&[bit]));
        }
    }
}

fn spread(script: &mut ChaseScript) {
    let bits = [3, 12, 17, 30];
    for number in 1..=bits.len() {
        for k in 0..=3 {
            tried(script, k, &raw::marker(&bits[..number]));
        }
    }
    let all: Vec<usize> = (0..32).collect();
    tried(script, 3, &raw::marker(&all));
}

fn put_right(script: &mut ChaseScript) {
    for wrong in [&[][..], &[0], &[31], &[8, 16], &[7, 15, 23], &[1, 2, 3]] {
        tried(script, 3, &frame(20, wrong));
    }
    tried(script, 3, &frame(20, &[7, 15, 23, 31]));
}

fn waits(script: &mut ChaseScript) {
    for wrong in [&[][..], &[4], &[4, 29], &[4, 29, 30]] {
        let one = frame(21, wrong);
        tried(script, 3, &one[..4]);
        script.feed(&one[4..1023]);
        script.show();
        script.feed(&one[1023..]);
        script.show();
    }
}

fn before_a_marker(script: &mut ChaseScript) {
    for cut in 1..=3 {
        for k in 0..=3 {
            tried(script, k, &[&MARKER[..cut], &MARKER, &[9, 9]].concat());
        }
    }
    let stream = [&MARKER[..3], &frame(22, &[]), &noise(4)].concat();
    for k in [2, 3] {
        tried(script, k, &stream);
    }
}

fn overlap(script: &mut ChaseScript) {
    let behind = [0xcf, 0xfc, 0x1d, 9, 9];
    for wrong in [&[][..], &[0, 8, 16], &[0, 8, 9, 16]] {
        let twice = [&raw::marker(wrong), &behind[..]].concat();
        for k in 0..=3 {
            tried(script, k, &twice);
        }
    }
    let stream = [&raw::marker(&[0, 8, 9, 16]), &behind[..3], &noise(1020)].concat();
    for k in [2, 3] {
        tried(script, k, &stream);
    }
}
