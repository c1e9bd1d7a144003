//! Where a frame ends, and what is never searched again.

use super::{frame, noise, tried, Row};
use crate::makers::chase_script::ChaseScript;
use crate::makers::raw;
use crate::model::frame::MARKER;

pub const CASES: &[Row] = &[
    (
        "frame-ends-in-a-marker",
        "a marker whose first 1, 2 or 3 octets end a frame is none: the hunt goes on behind the frame; 1D CF FC 1D there is one with k = 3",
        ends_in_a_marker,
    ),
    (
        "frame-ends-the-portion",
        "a frame whose last octet is the portion's: \"the hunter then holds no octet\"",
        ends_the_portion,
    ),
    (
        "frame-false",
        "a false marker 10 octets before a true one: the 1,024 octets from there are a frame, and the true marker is not seen",
        false_frame,
    ),
    (
        "frame-last-octet",
        "1,023 octets wait, and the next one makes the frame: 1 octet is taken",
        last_octet,
    ),
    (
        "frame-two-in-one-portion",
        "two frames in one portion: \"The rest of a portion is handed in again\"",
        two_in_one,
    ),
    (
        "frame-with-markers-in-it",
        "markers inside a frame, at its octets 4, 500 and 1,020, cut nothing",
        with_markers,
    ),
    (
        "stream-ends-in-a-frame",
        "the stream ends inside a frame: 4 to 1,023 octets wait",
        stream_ends_in_a_frame,
    ),
    (
        "stream-ends-in-a-marker",
        "the stream ends inside a marker: up to three octets wait, whatever they are",
        stream_ends_in_a_marker,
    ),
];

/// The marker over the octets at a place.
fn with_marker_at(mut octets: Vec<u8>, place: usize) -> Vec<u8> {
    for (octet, sent) in octets.iter_mut().skip(place).zip(MARKER) {
        *octet = sent;
    }
    octets
}

fn ends_in_a_marker(script: &mut ChaseScript) {
    for (k, cut) in [(0, 1), (0, 2), (0, 3), (3, 3), (2, 3)] {
        let ended = with_marker_at(frame(6, &[]), 1024 - cut);
        tried(script, k, &[&ended, &MARKER[cut..], &noise(20)].concat());
    }
    let ended = with_marker_at(frame(6, &[]), 1021);
    for k in [2, 3] {
        tried(
            script,
            k,
            &[&ended[..], &[0x1d, 0xcf, 0xfc, 0x1d, 7]].concat(),
        );
    }
}

fn ends_the_portion(script: &mut ChaseScript) {
    for before in [0, 1, 5] {
        tried(script, 1, &[noise(before), frame(7, &[12])].concat());
        script.feed(&[]);
        script.feed(&frame(8, &[])[..3]);
        script.show();
    }
}

fn false_frame(script: &mut ChaseScript) {
    let before = [&raw::marker(&[5, 6]), &noise(6)[..]].concat();
    let stream = [before, frame(9, &[]), frame(10, &[])].concat();
    for k in [1, 2] {
        tried(script, k, &stream);
    }
}

fn last_octet(script: &mut ChaseScript) {
    let one = frame(11, &[20, 21]);
    tried(script, 2, &one[..1023]);
    script.feed(&[one[1023], 0x1a, 0xcf]);
    script.show();
    tried(script, 2, &one[..1022]);
    script.feed(&one[1022..1023]);
    script.show();
    script.feed(&one[1023..]);
    script.show();
}

fn two_in_one(script: &mut ChaseScript) {
    tried(script, 0, &[frame(12, &[]), frame(13, &[])].concat());
    let apart = [noise(5), frame(12, &[]), noise(2), frame(13, &[]), noise(7)];
    tried(script, 0, &apart.concat());
}

fn with_markers(script: &mut ChaseScript) {
    let mut one = frame(14, &[]);
    for place in [4, 500, 1020] {
        one = with_marker_at(one, place);
    }
    tried(script, 0, &one);
    script.feed(&frame(15, &[]));
    script.show();
    script.begin(3);
    for portion in one.chunks(500) {
        script.feed(portion);
        script.show();
    }
}

fn stream_ends_in_a_frame(script: &mut ChaseScript) {
    for waiting in [4, 5, 8, 1022, 1023] {
        let cut = &frame(16, &[0, 31])[..waiting];
        tried(script, 2, &[&noise(9), cut].concat());
    }
}

fn stream_ends_in_a_marker(script: &mut ChaseScript) {
    for waiting in 1..=3 {
        tried(script, 0, &MARKER[..waiting]);
        tried(script, 0, &noise(waiting));
        tried(script, 0, &[&noise(9), &MARKER[..waiting]].concat());
    }
    tried(script, 0, &noise(9));
}
