//! The clerk's own commands on the right side of their limits.

use super::{four, text, Row};
use crate::makers::clerk_script::ClerkScript;
use crate::makers::make_catalogue::facts;
use crate::makers::make_header::{self, data};
use crate::model::catalogue;

pub const CASES: &[Row] = &[
    ("clerk-ignored", "\"Fields that a row does not name are ignored.\"", ignored),
    ("clerk-lent", "`M`: \"32,768 if c is more\", and any number of octets of the catalogue is kept as it is", lent),
    ("clerk-lent-less", "`J`, `F`, `I` and `C` are lent \"the first so many of those lent, or all that are lent if it is said to have more\"", less),
    ("clerk-long-file", "`E`: 65,535 octets follow, the most that two octets say, of a file that is entered", long_file),
    ("clerk-pokes", "`P`: the first and the last octet of the buffer, past its end, past what is lent, and b \"modulo 256\"", pokes),
    ("clerk-write", "`W`: no octet, and 32,768 of them, the most; \"how many are lent stays\"", write),
];

fn ignored(script: &mut ClerkScript) {
    let stored = catalogue::written(&four());
    script.command(b'M', 0xff, 0xffff, 32_768, 0);
    script.command(b'W', 0xff, 0xffff, stored.len() as u32, u64::MAX);
    script.octets.extend(stored);
    for letter in [b'J', b'H'] {
        script.command(letter, 0xff, 0xffff, u32::MAX, u64::MAX);
    }
    for letter in [b'F', b'I', b'C'] {
        script.command(letter, 0xff, 0xffff, u32::MAX, 1);
    }
    script.command(b'P', 0xff, 0x0007, u32::MAX, 90);
    script.command(b'B', 0xff, 0xffff, u32::MAX, u64::MAX);
    script.show();
}

fn lent(script: &mut ClerkScript) {
    script.lend(0, 0);
    script.show();
    for (lent, octets) in [
        (32_767, 1),
        (32_768, 32_769),
        (32_769, 1 << 32),
        (65_536, 65_536),
        (u32::MAX as usize, u64::MAX),
        (1, 1 << 63),
    ] {
        script.lend(lent, octets);
        script.show();
        script.begin();
        script.lend(lent, octets);
        script.judge();
    }
}

fn less(script: &mut ClerkScript) {
    let stored = catalogue::written(&four());
    let size = stored.len();
    script.holds(&stored);
    for (lent, octets) in [
        (size, u64::MAX),
        (size, size as u64 + 1),
        (size, 32_768),
        (size + 1, u64::MAX),
        (size - 1, u64::MAX),
        (size - 1, size as u64),
        (0, size as u64),
        (32_768, size as u64),
        (size, 1 << 32),
    ] {
        script.lend(lent, octets);
        script.judge();
        script.ask(0);
        script.enter_listed(&text());
    }
    script.show();
}

fn long_file(script: &mut ClerkScript) {
    script.holds_list(&four());
    let file = make_header::file(77, &[], &data(65_535 - 16));
    script.enter(&facts(5, 7, 65_535, 9), &file);
    script.file(4);
    script.show();
}

fn pokes(script: &mut ClerkScript) {
    script.holds_list(&four());
    script.show();
    for place in [32_768, 32_769, 65_536, 1 << 32, 1 << 63, u64::MAX] {
        script.poke(place, 0x55);
    }
    script.show();
    for place in [0, 1, 86, 87, 32_767] {
        script.poke(place, 0x55);
        script.show();
        script.judge();
    }
    script.command(b'P', 0, 0x0100, 0, 0);
    script.command(b'P', 0, 0xff04, 0, 1);
    script.command(b'P', 0, 0x1201, 0, 86);
    script.show();
    script.judge();
    script.command(b'P', 0, 0x0700, 0, 32_767);
    script.lend(10, 5);
    script.poke(20, 0x66);
    script.show();
}

fn write(script: &mut ClerkScript) {
    script.lend(100, 3);
    script.write(&data(32_768));
    script.show();
    script.judge();
    script.write(&[]);
    script.show();
    script.judge();
    script.write(&catalogue::written(&four()));
    script.show();
    script.judge();
    script.lend(86, 0);
    script.write(&catalogue::written(&four()));
    script.judge();
    script.write(&[0; 6]);
    script.judge();
    script.show();
}
