//! Read, file, image and channel.

use super::{four, text, Row};
use crate::makers::clerk_script::ClerkScript;
use crate::makers::make_catalogue::{greatest, plain_files};
use crate::model::catalogue;

pub const CASES: &[Row] = &[
    ("ask-0", "the empty catalogue, \"six, all zero\": 0 of everything, and no entry", nothing),
    ("ask-1", "one file without an image: no image to be asked for", one),
    ("ask-2", "two files on one channel", two),
    ("ask-4", "four files, two images and three channels: each entry, and those past the last", all_four),
    ("ask-1024", "1,024 files without images on one channel, \"At most 1,024 files\"", most),
    ("ask-greatest", "\"the longest catalogue has 22,723 octets\": its first and last entries, and those past them", the_greatest),
    ("ask-refused", "31 for every question and every n, if the octets are no catalogue", refused),
    ("ask-wide", "n is 64 bits wide: 65,536, 2^32, 2^63 and 2^64 - 1, and others whose lower bits are those of an entry, give nothing", wide),
];

fn each(script: &mut ClerkScript, numbers: &[u64]) {
    script.judge();
    for &n in numbers {
        script.ask(n);
    }
    script.show();
}

fn nothing(script: &mut ClerkScript) {
    script.holds_list(&[]);
    each(script, &[0, 1, 65_535, 65_536, u64::MAX]);
}

fn one(script: &mut ClerkScript) {
    script.holds_list(&[text()]);
    each(script, &[0, 1, 65_536, u64::MAX]);
}

fn two(script: &mut ClerkScript) {
    script.holds_list(&[text(), text()]);
    each(script, &[0, 1, 2, 65_537]);
}

fn all_four(script: &mut ClerkScript) {
    script.holds_list(&four());
    each(script, &[0, 1, 2, 3, 4, 5, 255, 256, 65_535]);
}

fn wide(script: &mut ClerkScript) {
    script.holds_list(&four());
    for bits in [16, 32, 63] {
        each(script, &[1 << bits, (1 << bits) + 1, (1 << bits) + 3]);
    }
    let most = u64::MAX;
    each(
        script,
        &[most, most - 1, most - 3, most << 2, most << 16, 256, 257],
    );
}

fn most(script: &mut ClerkScript) {
    script.holds_list(&plain_files(1024, 1));
    each(script, &[0, 1, 255, 256, 1022, 1023, 1024, 1025, 65_536]);
}

fn the_greatest(script: &mut ClerkScript) {
    script.holds_list(&greatest());
    each(
        script,
        &[
            0,
            1,
            61,
            62,
            63,
            64,
            255,
            256,
            511,
            1022,
            1023,
            1024,
            2047,
            65_536,
            u64::MAX,
        ],
    );
}

fn refused(script: &mut ClerkScript) {
    let good = catalogue::written(&four());
    let size = good.len() as u64;
    script.holds(&good);
    for octets in [0, 1, 5, 6, size - 1, size + 1] {
        script.lend(32_768, octets);
        each(script, &[0, 1, 4, u64::MAX]);
    }
    script.lend(32_768, size);
    for (place, octet) in [(2, 63), (59, 1), (86, 0)] {
        script.poke(place, octet);
        each(script, &[0, 2, 3, 65_536]);
        script.poke(place, good[place as usize]);
    }
    each(script, &[0]);
}
