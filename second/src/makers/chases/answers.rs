//! What begin answers, and 1 for a hunt.

use super::{frame, noise, tried, Row};
use crate::makers::chase_script::{ChaseScript, Field};
use crate::makers::raw;

pub const CASES: &[Row] = &[
    (
        "all-zero-at-the-start",
        "the hunter is \"all zero at the start\": 2 for a hunt; one that was begun is heard",
        at_the_start,
    ),
    (
        "answer-00-begin",
        "begin answers 0 for k 0 to 3, and the hunter \"waits for its first octet\"",
        begin,
    ),
    (
        "answer-01",
        "1: \"if the buffer has not 1,024 octets\": 0, 1,023, 1,025 and 2,048, and others; nothing is taken, and hunter and buffer are as they were",
        buffers,
    ),
    (
        "answer-01-before-2",
        "1 comes before 2: a buffer of a wrong size with a hunter that is not sound",
        before_2,
    ),
    (
        "answer-15",
        "15: \"Over 3\" a hunter that is all zero, so that a hunt is answered 2, also where octets waited",
        over_3,
    ),
    (
        "begin-again",
        "begin while octets wait: they are gone, and another k holds",
        again,
    ),
];

fn at_the_start(script: &mut ChaseScript) {
    script.show();
    let _ = script.hunt(&frame(1, &[]));
    let _ = script.hunt(&[]);
    script.show();
    tried(script, 0, &frame(1, &[]));
}

fn begin(script: &mut ChaseScript) {
    for k in 0..=3 {
        script.begin(k);
        script.show();
        let _ = script.hunt(&[0x1a, 0xcf]);
        script.show();
    }
}

fn over_3(script: &mut ChaseScript) {
    for k in [4, 5, 16, 128, 255] {
        script.begin(3);
        script.feed(&raw::marker(&[]));
        script.show();
        script.begin(k);
        script.show();
        let _ = script.hunt(&raw::marker(&[]));
        let _ = script.hunt(&[]);
        script.show();
    }
    tried(script, 3, &frame(2, &[]));
}

fn buffers(script: &mut ChaseScript) {
    script.begin(0);
    script.feed(&frame(1, &[]));
    script.feed(&[&noise(6)[..], &raw::marker(&[]), &[1, 2]].concat());
    script.show();
    for lent in [0, 1, 4, 1020, 1023, 1025, 2047, 2048] {
        let _ = script.hunt_into(lent, &[]);
        let _ = script.hunt_into(lent, &[3; 40]);
    }
    for lent in [0, 1023, 1025, 2048] {
        let _ = script.hunt_into(lent, &frame(2, &[])[6..]);
        script.show();
    }
    let _ = script.hunt_into(1024, &frame(2, &[])[6..]);
    script.show();
}

fn before_2(script: &mut ChaseScript) {
    script.begin(255);
    for lent in [0, 1023, 1024, 1025, 2048] {
        let _ = script.hunt_into(lent, &noise(9));
    }
    script.begin(1);
    script.poke(Field::K, 0, 4);
    for lent in [0, 1023, 1024, 1025, 2048] {
        let _ = script.hunt_into(lent, &[]);
    }
    script.poke(Field::K, 0, 1);
    for lent in [0, 1023, 1024, 1025, 2048] {
        let _ = script.hunt_into(lent, &[]);
    }
    script.show();
}

fn again(script: &mut ChaseScript) {
    tried(script, 3, &frame(1, &[0, 1, 2])[..700]);
    tried(script, 2, &frame(1, &[0, 1, 2])[700..]);
    tried(script, 0, &frame(1, &[]));
    tried(script, 1, &frame(2, &[31])[..1023]);
    script.begin(1);
    script.show();
    script.feed(&frame(2, &[31])[1023..]);
    script.show();
}
