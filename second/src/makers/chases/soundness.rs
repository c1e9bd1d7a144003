//! "A hunter is sound exactly if": each clause on both sides of its line, by pokes.

use super::{frame, tried, Row};
use crate::makers::chase_script::{ChaseScript, Field};
use crate::makers::raw;

pub const CASES: &[Row] = &[
    (
        "answer-02-behind",
        "2: \"every octet behind those that wait is zero\": the first behind them, one in the middle, and the last of the 1,024",
        behind,
    ),
    ("answer-02-begun", "2: \"it was begun\"", begun),
    ("answer-02-k", "2: \"its k is at most 3\": 4 and 255, and others", k),
    (
        "answer-02-marker",
        "2: \"either fewer than four wait or the first four are a marker with at most k wrong bits\": k wrong bits and k + 1",
        marker,
    ),
    (
        "answer-02-no-change",
        "after 2 \"no octet is taken, no frame is found, and hunter and buffer are as they were\"",
        no_change,
    ),
    (
        "answer-02-waiting",
        "2: \"at most 1,023 octets wait\": 1,024 and 65,535, and others",
        waiting,
    ),
    (
        "sound-by-pokes",
        "hunters that are sound by pokes alone: 3, 4 and 1,023 octets wait, and the hunt goes on from there",
        by_pokes,
    ),
];

/// A hunt that changes nothing: 0 of a sound hunter, 2 of another.
fn judge(script: &mut ChaseScript) {
    let _ = script.hunt(&[]);
    script.show();
}

/// Judges the hunter with one field changed, then puts the field back.
fn changed(script: &mut ChaseScript, field: Field, index: u16, numbers: &[u64], back: u64) {
    for &number in numbers {
        script.poke(field, index, number);
        judge(script);
    }
    script.poke(field, index, back);
    judge(script);
}

fn begun(script: &mut ChaseScript) {
    tried(script, 2, &[0x1a, 0xcf]);
    changed(script, Field::Begun, 0, &[0], 1);
    tried(script, 0, &frame(40, &[])[..1000]);
    changed(script, Field::Begun, 0, &[0], 1);
    script.feed(&frame(40, &[])[1000..]);
    script.begin(4);
    changed(script, Field::Begun, 0, &[1], 0);
}

fn k(script: &mut ChaseScript) {
    script.begin(2);
    changed(script, Field::K, 0, &[4, 5, 128, 255, 3, 1, 0], 2);
    tried(script, 0, &frame(41, &[])[..40]);
    changed(script, Field::K, 0, &[4, 255, 3, 1], 0);
}

fn waiting(script: &mut ChaseScript) {
    tried(script, 1, &frame(42, &[30])[..1023]);
    let numbers = [1024, 1025, 2047, 32_768, 33_791, 65_535];
    changed(script, Field::Waiting, 0, &numbers, 1023);
    tried(script, 0, &raw::marker(&[]));
    let numbers = [1024, 65_535, 1023, 1022, 5];
    changed(script, Field::Waiting, 0, &numbers, 4);
    script.begin(0);
    changed(script, Field::Waiting, 0, &[1024, 65_535, 1, 2, 3], 0);
}

/// For each k a marker of k wrong bits that waits, then one bit more, and one less.
fn marker(script: &mut ChaseScript) {
    let bits = [2, 11, 21, 31];
    for k in 0..=3 {
        let good = raw::marker(&bits[..k]);
        let bad = raw::marker(&bits[..k + 1]);
        tried(script, k as u8, &[&good[..], &[7]].concat());
        let place = bits[k] / 8;
        let (bad, good) = (u64::from(bad[place]), u64::from(good[place]));
        changed(script, Field::Octet, place as u16, &[bad], good);
        changed(script, Field::K, 0, &[0, 1, 2, 3], k as u64);
    }
    script.begin(3);
    changed(script, Field::Waiting, 0, &[3, 4, 5, 1023], 0);
    script.wait_with(&[1, 2, 3]);
    judge(script);
    script.wait_with(&[1, 2, 3, 4]);
    judge(script);
    script.wait_with(&raw::marker(&[0]));
    judge(script);
}

fn behind(script: &mut ChaseScript) {
    for waiting in [0, 1, 3, 4, 5, 1000, 1022] {
        tried(script, 3, &frame(43, &[8])[..waiting]);
        for index in [waiting as u16, 1010.max(waiting as u16), 1023] {
            changed(script, Field::Octet, index, &[1, 128], 0);
        }
    }
    tried(script, 3, &frame(43, &[8])[..1023]);
    changed(script, Field::Octet, 1023, &[1, 128], 0);
    changed(script, Field::Octet, 1022, &[0, 255], 1);
}

fn no_change(script: &mut ChaseScript) {
    let (first, second) = (frame(44, &[]), frame(45, &[]));
    tried(script, 0, &first);
    script.feed(&second[..100]);
    script.poke(Field::Octet, 100, 1);
    script.show();
    for portion in [&[][..], &second[100..], &first] {
        let _ = script.hunt(portion);
        script.show();
    }
    script.poke(Field::Octet, 100, 0);
    script.feed(&second[100..]);
    script.show();
}

fn by_pokes(script: &mut ChaseScript) {
    script.begin(3);
    script.wait_with(&[0x1a, 0xcf, 0xfc]);
    judge(script);
    script.feed(&frame(46, &[])[3..]);
    script.wait_with(&raw::marker(&[3, 4, 5]));
    judge(script);
    script.feed(&frame(46, &[])[4..]);
    let sparse = [raw::marker(&[3, 4, 5]), vec![0; 1019]].concat();
    script.wait_with(&sparse);
    judge(script);
    script.feed(&[7, 0x1a]);
    script.show();
}
