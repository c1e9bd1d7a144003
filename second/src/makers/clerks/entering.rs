//! What entering a file does to the three sections.

use super::{four, least, Row};
use crate::makers::clerk_script::ClerkScript;
use crate::makers::make_catalogue::{facts, lrit, picture, pictures, plain, plain_files};
use crate::makers::make_header::{self, data, image, navigation, record, segment, text, time};

pub const CASES: &[Row] = &[
    ("enter-any-numbers", "\"Counter, file type, columns, lines, segment number and total may be any number that their octets hold\": zeros and the greatest", any_numbers),
    ("enter-channels", "\"rising, only those with files\": channels entered from above, from below and in between, and each once more", channels),
    ("enter-channels-all", "63 channels: all that there are, entered from 62 down", all_channels),
    ("enter-image-alone", "an image structure record without a segment record: number and total are zeros", image_alone),
    ("enter-image-and-segment", "an image structure record and a segment record, in both orders", both),
    ("enter-images", "images of every second file, \"by rising index\", the first and the last among them", images),
    ("enter-length", "\"L is the one handed in ...; it is not compared with the file's octets\"", length),
    ("enter-order", "\"Order of completion is the order in which the caller enters the files\": the same file twice, and files of falling numbers", order),
    ("enter-records", "records of other types, before, between and behind: navigation, time stamp, and free ones", other_records),
    ("enter-segment-alone", "\"A segment record without an image structure record says nothing here.\"", segment_alone),
    ("enter-256-of-a-channel", "a channel's number of files over 255, and an image whose index is over 255", over_255),
];

/// An empty catalogue in all of the buffer.
fn empty(script: &mut ClerkScript) {
    script.lend(32_768, 0);
    script.begin();
}

/// Everything asked of a catalogue of so many files.
fn asked(script: &mut ClerkScript, files: u64) {
    script.judge();
    for n in 0..=files {
        script.ask(n);
    }
    script.show();
}

fn any_numbers(script: &mut ClerkScript) {
    empty(script);
    let least = picture(facts(0, 0, 0, 1), 0, 0, (0, 0));
    let most = picture(
        facts(62, 2015, 65_535, u64::MAX),
        65_535,
        65_535,
        (255, 255),
    );
    for file in [&least, &most, &least] {
        script.enter_listed(file);
    }
    for file_type in [0, 1, 128, 255] {
        script.enter_listed(&plain(
            facts(1, 0x102, 0x304, 0x0506_0708_090a_0b0c),
            file_type,
        ));
    }
    let segments = [(0, 1), (1, 0), (255, 0), (0, 255), (9, 3)];
    for segment in segments {
        script.enter_listed(&picture(facts(2, 1, 1, 1), 0x1234, 0x5678, segment));
    }
    asked(script, 12);
}

fn channels(script: &mut ClerkScript) {
    empty(script);
    for channel in [30, 62, 0, 31, 29, 1, 61] {
        script.enter(&facts(channel, 7, 8, 9), &least());
        script.judge();
        for n in 0..7 {
            script.channel(n);
        }
    }
    for channel in [61, 0, 30, 0] {
        script.enter(&facts(channel, 7, 8, 9), &least());
    }
    asked(script, 11);
}

fn all_channels(script: &mut ClerkScript) {
    empty(script);
    for channel in (0..63).rev() {
        script.enter(&facts(channel, 7, 8, 9), &least());
    }
    script.judge();
    for n in [0, 1, 31, 61, 62, 63] {
        script.channel(n);
    }
    script.enter(&facts(40, 7, 8, 9), &least());
    script.channel(40);
    script.show();
}

fn images(script: &mut ClerkScript) {
    empty(script);
    let (with, without) = (pictures(9, 2), plain_files(9, 2));
    for (index, (picture, plain)) in with.iter().zip(&without).enumerate() {
        script.enter_listed(if index % 2 == 0 { picture } else { plain });
    }
    asked(script, 9);
    script.enter_listed(&with[1]);
    script.image(5);
    script.show();
}

/// Files with these records, entered in a catalogue that has four.
fn with_records(script: &mut ClerkScript, headers: &[Vec<Vec<u8>>]) {
    script.holds_list(&four());
    for records in headers {
        let file = make_header::file(3, records, &data(5));
        script.enter(&facts(6, 66, 666, 6666), &file);
        script.judge();
    }
    asked(script, 4 + headers.len() as u64);
}

fn image_alone(script: &mut ClerkScript) {
    with_records(
        script,
        &[vec![image(8, 0x0102, 0x0304, 1)], vec![image(1, 1, 2, 0)]],
    );
}

fn segment_alone(script: &mut ClerkScript) {
    with_records(
        script,
        &[vec![segment(1, 2, 3)], vec![segment(255, 255, 0)]],
    );
}

fn both(script: &mut ClerkScript) {
    let (image, segment) = (image(8, 500, 600, 0), segment(7, 8, 0x0a0b));
    let orders = [vec![image.clone(), segment.clone()], vec![segment, image]];
    with_records(script, &orders);
}

fn other_records(script: &mut ClerkScript) {
    let (image, segment) = (image(8, 500, 600, 0), segment(7, 8, 9));
    let (place, made) = (navigation("GEOS(0.0)", [1, -1, 2, -2]), time(0x40, 1, 2));
    let (name, free) = (text(4, "A"), record(129, &[1, 0, 9, 8, 1, 1, 1, 1, 0]));
    with_records(
        script,
        &[
            vec![place.clone(), made.clone(), name.clone()],
            vec![
                place.clone(),
                image.clone(),
                made.clone(),
                segment.clone(),
                free.clone(),
            ],
            vec![free, segment, name.clone(), name, image, place],
            vec![record(127, &[7, 8, 0, 9]), record(200, &[])],
            vec![made],
        ],
    );
}

fn length(script: &mut ClerkScript) {
    script.holds_list(&four());
    let file = make_header::file(1, &[], &data(50));
    for length in [1, 8 * 66 - 1, 8 * 66, 8 * 66 + 1, 400, u64::MAX] {
        script.enter(&facts(5, 7, 8, length), &file);
    }
    asked(script, 10);
}

fn order(script: &mut ClerkScript) {
    empty(script);
    let mut files = four();
    files.reverse();
    files.push(files[0].clone());
    for file in &files {
        script.enter_listed(file);
    }
    let falling = [9, 8, 7].map(|n| plain(facts(n, n.into(), n.into(), n.into()), n));
    for file in falling {
        script.enter(&file.facts, &lrit(&file));
    }
    asked(script, 8);
}

/// 300 files on two channels, of which the last ten have images.
fn over_255(script: &mut ClerkScript) {
    let mut list = plain_files(290, 1);
    list.extend(pictures(300, 1).split_off(290));
    script.holds_list(&list);
    script.enter_listed(&picture(facts(0, 1, 2, 3), 4, 5, (6, 7)));
    script.enter_listed(&plain(facts(1, 1, 2, 3), 4));
    script.judge();
    for n in [0, 1, 9, 10, 11, 255, 256, 299, 300, 301, 302] {
        script.ask(n);
    }
    script.show();
}
