//! "It answers, the lowest number that applies": two refusals that come together.

use super::{between_shows, four, least, text, Row};
use crate::makers::clerk_script::ClerkScript;
use crate::makers::make_catalogue::{facts, greatest, plain_files};
use crate::makers::make_header::{self, image, primary, record_of_length};
use crate::model::catalogue;

pub const CASES: &[Row] = &[
    ("order-20-to-26-before-30", "a refused header comes before 1,024 files", header_before_full),
    ("order-20-to-26-before-31", "a refused header comes before what is no catalogue, and before each of the bad facts", header_before_31),
    ("order-20-to-26-before-34", "a refused header comes before a buffer that is too short", header_before_34),
    ("order-30-before-31", "1,024 files come before a channel over 62, an application over 2015 and an L of 0; a wrong number of octets is 31", full_before_31),
    ("order-30-before-34", "1,024 files come before a buffer that is too short: all that the catalogue has is lent, and no octet more", full_before_34),
    ("order-31-before-34", "bad facts, and what is no catalogue, come before a buffer that is too short", before_34),
];

/// A file for each refusal from 20 to 26.
fn refused_headers() -> Vec<Vec<u8>> {
    let with = |record: Vec<u8>| make_header::file(0, &[record], &[]);
    vec![
        least()[..15].to_vec(),
        [&[1][..], &least()[1..]].concat(),
        primary(0, 15, 0),
        with(record_of_length(4, 2, &[1])),
        with(record_of_length(1, 8, &[0; 5])),
        make_header::file(0, &[image(8, 1, 1, 0), image(8, 1, 1, 0)], &[]),
        [&least()[..], &[0]].concat(),
    ]
}

fn each_refused(script: &mut ClerkScript, channel: u8, application: u16, length: u64) {
    for file in refused_headers() {
        script.enter(&facts(channel, application, 1, length), &file);
    }
}

fn header_before_full(script: &mut ClerkScript) {
    script.holds_list(&plain_files(1024, 1));
    between_shows(script, |script| {
        each_refused(script, 0, 7, 9);
        script.enter_listed(&text());
    });
}

fn header_before_31(script: &mut ClerkScript) {
    script.holds_list(&four());
    between_shows(script, |script| {
        each_refused(script, 63, 7, 9);
        each_refused(script, 0, 2016, 9);
        each_refused(script, 0, 7, 0);
    });
    script.lend(32_768, 5);
    each_refused(script, 0, 7, 9);
    script.lend(32_768, u64::MAX);
    each_refused(script, 0, 7, 9);
    script.enter_listed(&text());
    script.show();
}

fn header_before_34(script: &mut ClerkScript) {
    let good = catalogue::written(&four());
    script.holds(&good);
    script.lend(good.len(), good.len() as u64);
    between_shows(script, |script| {
        each_refused(script, 0, 7, 9);
        script.enter_listed(&text());
    });
    script.lend(0, 0);
    each_refused(script, 0, 7, 9);
    script.enter_listed(&text());
}

fn bad_facts(script: &mut ClerkScript) {
    for (channel, application, length) in [(63, 7, 9), (0, 2016, 9), (0, 7, 0), (255, 65_535, 0)] {
        script.enter(&facts(channel, application, 1, length), &least());
    }
}

fn full_before_31(script: &mut ClerkScript) {
    let full = catalogue::written(&greatest());
    let size = full.len() as u64;
    script.holds(&full);
    between_shows(script, |script| {
        bad_facts(script);
        script.enter_listed(&text());
    });
    for octets in [0, size - 1, size + 1, u64::MAX] {
        script.lend(32_768, octets);
        script.enter_listed(&text());
        bad_facts(script);
    }
    script.lend(32_768, size);
    script.poke(2, 63);
    script.enter_listed(&text());
    script.show();
}

fn full_before_34(script: &mut ClerkScript) {
    let full = catalogue::written(&plain_files(1024, 1));
    let size = full.len();
    script.holds(&full);
    script.lend(size, size as u64);
    between_shows(script, |script| {
        script.enter_listed(&text());
        bad_facts(script);
    });
    script.lend(size - 1, size as u64);
    script.enter_listed(&text());
    script.lend(size + 16, size as u64);
    script.enter_listed(&text());
    script.show();
}

fn before_34(script: &mut ClerkScript) {
    let good = catalogue::written(&four());
    let size = good.len() as u64;
    script.holds(&good);
    script.lend(good.len(), size);
    between_shows(script, |script| {
        bad_facts(script);
        script.enter_listed(&text());
    });
    script.poke(1, 5);
    script.enter_listed(&text());
    script.poke(1, 4);
    for (lent, octets) in [
        (good.len(), size - 1),
        (good.len() - 1, size),
        (5, 6),
        (0, 0),
        (3, 3),
    ] {
        script.lend(lent, octets);
        script.enter_listed(&text());
    }
    script.show();
}
