//! "Octets are a catalogue exactly if they are what is written so for some list of files".

use super::{four, Row};
use crate::makers::clerk_script::ClerkScript;
use crate::makers::make_catalogue::{
    channel_entry, facts, file_entry, image_entry, picture, plain, plain_files, Sections,
};
use crate::model::catalogue::{self, File};

pub const CASES: &[Row] = &[
    ("stored-1025", "31: 1,025 files, all else as it is written", too_many),
    ("stored-any-numbers", "\"Counter, file type, columns, lines, segment number and total may be any number\": each octet of them with every bit changed", any_numbers),
    ("stored-application", "\"applications up to 2015\": 2015 and 2016, and others", application),
    ("stored-channel-62", "\"channels 0 to 62\": 62 and 63, and others, in both sections", channel_62),
    ("stored-channels", "the channel section \"is what counting the file section gives\": out of order, twice, missing, one too many, of 0 files, wrong counts", channels),
    ("stored-counts", "the three counts, each one more, one less and huge: \"the three counts and their entries are all the octets\"", counts),
    ("stored-cut", "cut short at every length, and said to be shorter at every length", cut),
    ("stored-each-octet", "each octet of a catalogue changed in turn, six values each", each_octet),
    ("stored-ff-ff", "FF FF at the start, before a catalogue, alone, and over its first count", ff_ff),
    ("stored-images", "images out of order, one twice, an index out of range, one for every file, none", images),
    ("stored-length", "\"L at least 1\": 0, 1 and 2^64 - 1", length),
    ("stored-list", "a catalogue without files has no image and no channel", without_files),
    ("stored-number", "octets said to be there: 0, one less, one more, 2^64 - 1", number),
    ("stored-sections", "sections in another order, or one of them missing", sections),
    ("stored-trailing", "\"to the last one\": one octet more, whatever it is, a further entry, and a further section", trailing),
];

fn judged(script: &mut ClerkScript, octets: &[u8]) {
    script.write(octets);
    script.judge();
}

/// All of the buffer lent, and the catalogue of four files as the first one that is judged.
fn start(script: &mut ClerkScript) -> Sections {
    script.holds_list(&four());
    script.judge();
    Sections::of(&four())
}

fn too_many(script: &mut ClerkScript) {
    script.holds(&Sections::of(&plain_files(1025, 1)).octets());
    script.judge();
    script.ask(0);
    script.show();
}

/// Changes the octet at a place, judges, and puts it back.
fn with_octets(script: &mut ClerkScript, stored: &[u8], place: usize, octets: &[u8]) {
    for &octet in octets {
        script.poke(place as u64, octet);
        script.judge();
    }
    script.poke(place as u64, stored[place]);
}

fn each_octet(script: &mut ClerkScript) {
    start(script);
    let stored = catalogue::written(&four());
    for (place, &old) in stored.iter().enumerate() {
        let (more, less) = (old.wrapping_add(1), old.wrapping_sub(1));
        let octets = [more, less, old ^ 0x10, old ^ 0x80, 0, 255];
        with_octets(script, &stored, place, &octets);
    }
    script.judge();
    script.show();
}

/// A file with an image: its counter, type, columns, lines, number and total.
fn any_numbers(script: &mut ClerkScript) {
    let list = [picture(facts(3, 4, 5, 6), 7, 8, (9, 10))];
    let stored = catalogue::written(&list);
    script.holds(&stored);
    for place in [5, 6, 15, 20, 21, 22, 23, 24, 25] {
        let flipped: Vec<u8> = (0..8).map(|bit| stored[place] ^ 1 << bit).collect();
        with_octets(script, &stored, place, &flipped);
        with_octets(script, &stored, place, &[0, 255]);
    }
    script.judge();
    script.show();
}

/// Lists that differ in one file alone.
fn with_facts(script: &mut ClerkScript, lists: &[(u8, u16, u64)]) {
    start(script);
    for &(channel, application, length) in lists {
        let mut list = four();
        list.insert(2, plain(facts(channel, application, 1, length), 2));
        judged(script, &Sections::of(&list).octets());
        script.file(2);
    }
    script.show();
}

fn application(script: &mut ClerkScript) {
    let applications = [0, 2014, 2015, 2016, 2017, 2047, 4063, 32_768, 65_535];
    with_facts(script, &applications.map(|application| (2, application, 8)));
}

fn length(script: &mut ClerkScript) {
    let lengths = [0, 1, 2, 255, 256, 1 << 32, 1 << 63, u64::MAX];
    with_facts(script, &lengths.map(|length| (2, 9, length)));
}

fn channel_62(script: &mut ClerkScript) {
    let channels = [0, 61, 62, 63, 64, 127, 128, 255];
    with_facts(script, &channels.map(|channel| (channel, 9, 8)));
    for channel in [62, 63] {
        let mut sections = Sections::of(&four());
        sections.channels.push(channel_entry(channel, 1));
        judged(script, &sections.octets());
        sections
            .files
            .push(file_entry(&plain(facts(channel, 1, 1, 1), 1)));
        judged(script, &sections.octets());
    }
}

/// The four files' channels are 1 with one file, 5 with two and 40 with one.
const CHANNELS: &[&[(u8, u16)]] = &[
    &[(5, 2), (1, 1), (40, 1)],
    &[(1, 1), (40, 1), (5, 2)],
    &[(40, 1), (5, 2), (1, 1)],
    &[(1, 1), (1, 1), (5, 2), (40, 1)],
    &[(1, 1), (5, 1), (5, 1), (40, 1)],
    &[(1, 1), (5, 2), (40, 1), (40, 1)],
    &[(1, 1), (5, 2)],
    &[(1, 1), (40, 1)],
    &[(5, 2), (40, 1)],
    &[],
    &[(0, 0), (1, 1), (5, 2), (40, 1)],
    &[(1, 1), (5, 2), (6, 0), (40, 1)],
    &[(1, 1), (5, 2), (40, 1), (41, 0)],
    &[(1, 1), (5, 2), (40, 1), (41, 1)],
    &[(1, 1), (5, 2), (40, 0)],
    &[(1, 1), (5, 1), (40, 1)],
    &[(1, 1), (5, 3), (40, 1)],
    &[(1, 2), (5, 1), (40, 1)],
    &[(1, 1), (5, 258), (40, 1)],
    &[(1, 1), (6, 2), (40, 1)],
    &[(1, 1), (5, 2), (40, 1)],
];

fn channels(script: &mut ClerkScript) {
    let good = start(script);
    for channels in CHANNELS {
        let entries = channels
            .iter()
            .map(|&(channel, files)| channel_entry(channel, files));
        let sections = Sections {
            channels: entries.collect(),
            ..good.clone()
        };
        judged(script, &sections.octets());
    }
    script.show();
}

fn counts(script: &mut ClerkScript) {
    let good = start(script);
    for section in 0..3 {
        let right = good.counts();
        let count = right[section];
        let others = [
            count + 1,
            count - 1,
            0,
            count + 256,
            255,
            1024,
            1025,
            32_768,
            65_535,
        ];
        for other in others {
            let mut counts = right;
            counts[section] = other;
            judged(script, &good.behind_counts(counts));
        }
    }
    shifted(script);
    judged(script, &good.octets());
    script.show();
}

/// Counts that lie and yet take up all octets: one of the files' entries is said to be images' and
/// channels', and the other way about.
fn shifted(script: &mut ClerkScript) {
    let files: Vec<File> = (0..8).map(|n| plain(facts(n, 1, 1, 1), 0)).collect();
    let good = Sections::of(&files);
    for (files, images, channels) in [(8, 0, 8), (7, 1, 10), (7, 0, 12), (4, 7, 8), (0, 17, 0)] {
        judged(script, &good.behind_counts([files, images, channels]));
    }
}

fn cut(script: &mut ClerkScript) {
    start(script);
    let size = catalogue::written(&four()).len();
    for octets in (0..=size).rev() {
        script.lend(32_768, octets as u64);
        script.judge();
    }
    for lent in (0..=size).rev().step_by(3) {
        script.lend(lent, u64::MAX);
        script.judge();
    }
    script.show();
}

fn ff_ff(script: &mut ClerkScript) {
    let good = start(script);
    let stored = good.octets();
    judged(script, &[&[0xff, 0xff], &stored[..]].concat());
    judged(script, &[0xff, 0xff]);
    judged(script, &[0xff; 6]);
    judged(script, &[0xff, 0xff, 0, 0, 0, 0]);
    judged(script, &[&[0xff, 0xff], &stored[2..]].concat());
    script.ask(0);
    script.show();
}

/// The four files' images have the indexes 0 and 2.
fn images(script: &mut ClerkScript) {
    let good = start(script);
    let entry = |index| image_entry(index, index ^ 300, 7, (1, 2));
    for indexes in [
        &[0, 2][..],
        &[2, 0],
        &[0, 0],
        &[2, 2],
        &[0, 2, 2],
        &[0, 1, 3],
        &[0, 1, 2, 3],
        &[0, 2, 1, 3],
        &[0, 1, 2, 3, 3],
        &[0, 1, 2, 3, 4],
        &[3],
        &[4],
        &[0, 4],
        &[4, 0],
        &[0, 256],
        &[0, 65_535],
        &[],
    ] {
        let sections = Sections {
            images: indexes.iter().copied().map(entry).collect(),
            ..good.clone()
        };
        judged(script, &sections.octets());
        script.image(1);
    }
    script.show();
}

/// No file, and yet an image or a channel.
fn without_files(script: &mut ClerkScript) {
    let good = start(script);
    let none = Sections {
        files: vec![],
        images: vec![],
        channels: vec![],
    };
    let with_image = Sections {
        images: good.images.clone(),
        ..none.clone()
    };
    let with_channel = Sections {
        channels: vec![channel_entry(0, 0)],
        ..none.clone()
    };
    for sections in [&none, &with_image, &with_channel] {
        judged(script, &sections.octets());
    }
    for octets in 0..=7 {
        judged(script, &vec![0; octets]);
    }
    script.show();
}

fn number(script: &mut ClerkScript) {
    start(script);
    let size = catalogue::written(&four()).len() as u64;
    for octets in [
        0,
        size - 1,
        size,
        size + 1,
        32_768,
        32_769,
        1 << 32,
        (1 << 32) + size,
    ] {
        script.lend(32_768, octets);
        script.judge();
        script.ask(0);
    }
    script.lend(32_768, u64::MAX);
    script.judge();
    script.ask(0);
    script.show();
}

fn sections(script: &mut ClerkScript) {
    let good = start(script);
    let behind = |count: &[Vec<u8>]| {
        let number = (count.len() as u16).to_be_bytes();
        [&number[..], &count.concat()].concat()
    };
    let parts = [&good.files, &good.images, &good.channels].map(|entries| behind(entries));
    for order in [
        [0, 2, 1],
        [1, 0, 2],
        [2, 1, 0],
        [1, 2, 0],
        [2, 0, 1],
        [0, 1, 2],
    ] {
        judged(script, &order.map(|part| parts[part].clone()).concat());
    }
    for two in [[0, 1], [0, 2], [1, 2]] {
        judged(script, &two.map(|part| parts[part].clone()).concat());
    }
    for part in &parts {
        judged(script, part);
    }
    script.show();
}

fn trailing(script: &mut ClerkScript) {
    let good = start(script);
    let stored = good.octets();
    for behind in [
        &[0][..],
        &[1],
        &[255],
        &[0, 0],
        &[0, 0, 0],
        &[40, 0, 1],
        &[41, 0, 1],
        &[0; 6],
        &[0; 14],
        &good.files[0],
        &stored,
    ] {
        judged(script, &[&stored, behind].concat());
    }
    for octets in 6..=20 {
        judged(script, &vec![0; octets]);
    }
    script.show();
}
