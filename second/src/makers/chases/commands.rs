//! The chase's own commands on the right side of their limits.

use super::{frame, noise, Row};
use crate::makers::chase_script::{ChaseScript, Field};

pub const CASES: &[Row] = &[
    (
        "chase-buffer",
        "the buffer is \"never cleared\": it keeps the last frame over hunts without one, refusals and begin",
        buffer,
    ),
    (
        "chase-ignored",
        "\"Fields that a row does not name are ignored.\"",
        ignored,
    ),
    (
        "chase-most",
        "the greatest `N` that is carried out: 2,048 octets lent, and a portion of 8,192",
        most,
    ),
    (
        "chase-pokes",
        "`Q` past the octets and of no field does nothing; numbers are cut to the width",
        pokes,
    ),
];

fn buffer(script: &mut ChaseScript) {
    script.begin(0);
    script.feed(&frame(3, &[]));
    script.feed(&noise(30));
    let _ = script.hunt_into(2048, &frame(4, &[]));
    script.begin(4);
    let _ = script.hunt(&frame(4, &[]));
    script.begin(0);
    let _ = script.hunt(&[]);
    script.feed(&frame(4, &[])[..1023]);
    script.feed(&frame(4, &[])[1023..]);
}

fn ignored(script: &mut ChaseScript) {
    script.command(b'B', 2, 0xffff, u32::MAX, u64::MAX);
    script.command(b'N', 0xff, 1024, 3, u64::MAX);
    script.octets.extend([0x1a, 0xcf, 0xfc]);
    script.command(b'H', 0xff, 0xffff, u32::MAX, u64::MAX);
    script.command(b'Q', 0, 0xffff, u32::MAX, 1);
    script.command(b'Q', 1, 0xffff, u32::MAX, 3);
    script.command(b'Q', 2, 0xffff, u32::MAX, 2);
    script.command(b'Q', 3, 2, u32::MAX, 0);
    script.command(b'H', 1, 1, 1, 1);
}

fn most(script: &mut ChaseScript) {
    script.begin(3);
    let long = [noise(8192 - 1024 - 40), frame(5, &[9]), noise(40)].concat();
    let _ = script.hunt_into(2048, &long);
    script.show();
    script.feed(&long);
    script.show();
}

/// Numbers wider than the fields.
fn wide(script: &mut ChaseScript) {
    script.poke(Field::K, 0, 0x102);
    script.poke(Field::Waiting, 0, 0x7_0003);
    script.poke(Field::Octet, 2, 0xffff_ff0f);
    script.poke(Field::Begun, 0, 1 << 63);
    script.show();
    let _ = script.hunt(&[]);
    script.poke(Field::Begun, 0, 256);
    script.show();
    script.poke(Field::Begun, 0, 0);
    script.show();
    let _ = script.hunt(&[]);
    script.poke(Field::K, 0, u64::MAX);
    script.poke(Field::Waiting, 0, u64::MAX);
    script.poke(Field::Octet, 1023, u64::MAX);
    script.show();
}

fn pokes(script: &mut ChaseScript) {
    script.begin(1);
    for index in [1024, 1025, 2048, 65_535] {
        script.poke(Field::Octet, index, 0x55);
    }
    for field in [4, 5, 128, 255] {
        script.command(b'Q', field, 0, 0, 1);
    }
    script.show();
    for index in [0, 1, 1022, 1023] {
        script.poke(Field::Octet, index, 0x55);
        script.show();
        script.poke(Field::Octet, index, 0);
    }
    script.show();
    wide(script);
}
