//! What begin and enter answer, but for 34.

use super::{between_shows, four, least, text, Row};
use crate::makers::clerk_script::ClerkScript;
use crate::makers::make_catalogue::{self, facts, lrit, pictures, plain_files};
use crate::makers::make_header::{self, data, image, primary, record_of_length, segment};
use crate::model::catalogue;

pub const CASES: &[Row] = &[
    (
        "all-zero-at-the-start",
        "the buffer is \"all zero at the start\", and both numbers are 0: 34 for begin, 31 for every other call; with six octets lent and said to be there, zeros are a catalogue",
        at_the_start,
    ),
    ("answer-00-begin", "begin: 6, 7 and 32,768 octets lent; \"the first six octets are zero\", and no other is changed", begin),
    ("answer-00-enter", "four files entered one after the other, each read back, with images and without", enter),
    ("answer-20", "20: files of 0, 1 and 15 octets are not entered; one of 16 is", under_sixteen),
    ("answer-21", "21: a first record of type 1, or of another length than 16", not_primary),
    ("answer-22", "22: a header length of 15, and one octet beyond the file", header_length),
    ("answer-23", "23: a record of length 2, one that passes the header's end, and under three octets left", record_length),
    ("answer-24", "24: an image structure record of 8 octets, a segment record of 8", fixed_length),
    ("answer-25", "25: two image structure records, two segment records, two primary ones", twice),
    ("answer-26", "26: an octet too few or too many; a data field that is filled up is entered", data_length),
    ("answer-30", "30: \"a catalogue with 1,024 files\": the 1,024th is entered, the 1,025th is not", full),
    ("answer-31-channel", "31: \"the channel is over 62\"; 62 is entered", channel),
    ("answer-31-application", "31: the application is \"over 2015\"; 2015 is entered", application),
    ("answer-31-length", "31: \"L is 0\"; 1 and 2^64 - 1 are entered", length),
    ("answer-31-no-catalogue", "31: what was handed in is no catalogue, in each of its sections", no_catalogue),
    ("answer-31-number", "31: \"if its number of octets is more than the buffer has\", or another than the catalogue has: 0, one less, one more, 2^64 - 1", number),
];

fn at_the_start(script: &mut ClerkScript) {
    script.show();
    script.judge();
    script.ask(0);
    script.begin();
    script.enter_listed(&text());
    script.show();
    script.lend(6, 0);
    script.judge();
    script.lend(6, 6);
    script.judge();
    script.ask(0);
    script.enter_listed(&text());
    script.lend(32_768, 6);
    script.enter_listed(&text());
    script.judge();
    script.show();
}

fn begin(script: &mut ClerkScript) {
    for lent in [6, 7, 32_768] {
        script.lend(0, 0);
        script.write(&[0xa5; 40]);
        script.lend(lent, 40);
        script.begin();
        script.judge();
        script.show();
    }
    script.holds_list(&four());
    script.begin();
    script.judge();
    script.ask(0);
    script.enter_listed(&text());
    script.show();
}

fn enter(script: &mut ClerkScript) {
    script.lend(32_768, 0);
    script.begin();
    for file in four() {
        script.enter_listed(&file);
        script.judge();
        for n in 0..4 {
            script.ask(n);
        }
        script.show();
    }
}

/// Files that are refused: the catalogue stays. Then one that is entered.
fn refused(script: &mut ClerkScript, files: &[Vec<u8>]) {
    script.holds_list(&four());
    between_shows(script, |script| {
        for file in files {
            script.enter(&facts(5, 7, 8, 9), file);
        }
        script.judge();
    });
    script.enter(&facts(5, 7, 8, 9), &least());
    script.file(4);
}

fn under_sixteen(script: &mut ClerkScript) {
    refused(script, &[vec![], vec![0], least()[..15].to_vec()]);
}

fn not_primary(script: &mut ClerkScript) {
    let other = |kind, length| [&record_of_length(kind, length, &[])[..], &least()[3..]].concat();
    refused(
        script,
        &[other(1, 16), other(0, 15), other(0, 17), other(255, 0)],
    );
}

fn header_length(script: &mut ClerkScript) {
    let with = |length, data: usize| [primary(0, length, 8 * data as u64), vec![0; data]].concat();
    refused(
        script,
        &[
            with(15, 0),
            with(0, 0),
            with(17, 0),
            with(20, 3),
            with(u32::MAX, 0),
        ],
    );
}

fn record_length(script: &mut ClerkScript) {
    let file = |record: Vec<u8>| make_header::file(0, &[record], &[]);
    refused(
        script,
        &[
            file(record_of_length(4, 2, &[1])),
            file(record_of_length(4, 5, &[1])),
            file(vec![4, 0]),
            make_header::file(0, &[image(8, 1, 1, 0), vec![1]], &[]),
        ],
    );
}

fn fixed_length(script: &mut ClerkScript) {
    let file = |kind, length: u16| {
        let record = record_of_length(kind, length, &vec![0; usize::from(length) - 3]);
        make_header::file(0, &[record], &[])
    };
    refused(
        script,
        &[
            file(1, 8),
            file(1, 10),
            file(128, 8),
            file(128, 6),
            file(2, 50),
            file(5, 9),
        ],
    );
}

fn twice(script: &mut ClerkScript) {
    let file = |record: Vec<u8>| make_header::file(0, &[record.clone(), record], &[]);
    let again = make_header::file(0, &[primary(0, 16, 0)], &[]);
    refused(
        script,
        &[file(image(8, 1, 1, 0)), file(segment(1, 2, 3)), again],
    );
}

fn data_length(script: &mut ClerkScript) {
    let file = make_header::file(1, &[image(8, 3, 2, 0)], &data(6));
    let longer = [&file[..], &[0]].concat();
    refused(script, &[file[..file.len() - 1].to_vec(), longer]);
    let with = |bits, data: usize| [primary(9, 16, bits), vec![0; data]].concat();
    for (bits, data) in [
        (41, 6),
        (48, 6),
        (40, 6),
        (49, 6),
        (u64::MAX, 6),
        (1, 1),
        (0, 0),
    ] {
        script.enter(&facts(5, 7, 8, 9), &with(bits, data));
    }
    script.judge();
    script.show();
}

/// 1,022 files, then up to 1,024 and one more, with an image and without.
fn full(script: &mut ClerkScript) {
    script.holds_list(&plain_files(1022, 3));
    let picture = &pictures(1, 1)[0];
    script.enter_listed(picture);
    script.enter_listed(&text());
    script.judge();
    script.file(1023);
    script.image(0);
    between_shows(script, |script| {
        script.enter_listed(&text());
        script.enter_listed(picture);
        script.judge();
    });
}

fn channel(script: &mut ClerkScript) {
    script.holds_list(&four());
    between_shows(script, |script| {
        for channel in [63, 64, 128, 255] {
            script.enter(&facts(channel, 7, 8, 9), &least());
        }
    });
    for channel in [62, 0, 61] {
        script.enter(&facts(channel, 7, 8, 9), &least());
    }
    script.judge();
    script.show();
}

fn application(script: &mut ClerkScript) {
    script.holds_list(&four());
    between_shows(script, |script| {
        for application in [2016, 2017, 2047, 4063, 0x8000, 65_535] {
            script.enter(&facts(3, application, 8, 9), &least());
        }
    });
    for application in [2015, 0, 2014] {
        script.enter(&facts(3, application, 8, 9), &least());
    }
    script.judge();
    script.show();
}

fn length(script: &mut ClerkScript) {
    script.holds_list(&four());
    between_shows(script, |script| {
        script.enter(&facts(3, 7, 8, 0), &least());
    });
    for length in [1, 7, 1 << 32, 1 << 63, u64::MAX] {
        script.enter(&facts(3, 7, 8, length), &least());
        script.file(4);
    }
    script.judge();
    script.show();
}

/// Octets of the four files' catalogue that are changed in turn: a count, a channel, an index, a
/// channel's number of files.
fn no_catalogue(script: &mut ClerkScript) {
    let good = catalogue::written(&four());
    script.holds(&good);
    for (place, octet) in [
        (1, 5),
        (0, 255),
        (2, 63),
        (59, 3),
        (61, 4),
        (77, 4),
        (80, 2),
    ] {
        script.poke(place, octet);
        script.enter_listed(&text());
        script.show();
        script.poke(place, good[place as usize]);
    }
    script.enter_listed(&text());
    script.holds(&[]);
    script.enter_listed(&text());
    script.holds(&[0xff; 6]);
    script.enter_listed(&text());
    script.show();
}

fn number(script: &mut ClerkScript) {
    let good = catalogue::written(&four());
    let (size, file) = (good.len() as u64, lrit(&make_catalogue::pictures(1, 1)[0]));
    script.holds(&good);
    let near = [0, 1, 5, 6, size - 1, size + 1, 32_767, 32_768, 32_769];
    let wide = [16, 32, 63].map(|bits| (1 << bits) + size);
    for octets in near.into_iter().chain(wide).chain([1 << 32, u64::MAX]) {
        script.lend(32_768, octets);
        script.enter(&facts(5, 7, 8, 9), &file);
        script.judge();
        script.show();
    }
    for lent in [0, 5, 6, good.len() - 1] {
        script.lend(lent, size);
        script.enter(&facts(5, 7, 8, 9), &file);
        script.judge();
    }
    script.lend(32_768, size);
    script.enter(&facts(5, 7, 8, 9), &file);
    script.show();
}
