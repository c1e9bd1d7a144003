//! 34, and what is behind the new end.

use super::{between_shows, four, text, Row};
use crate::makers::clerk_script::ClerkScript;
use crate::makers::make_catalogue::{facts, picture, pictures, plain};
use crate::model::catalogue::{self, File};

pub const CASES: &[Row] = &[
    ("answer-34-begin", "34 for begin: 0 to 5 octets lent, and nothing is changed; 6 are enough", begin),
    ("answer-34-file", "34: a file on a channel that has files wants 14 octets more: 13 are too few, and no octet is changed", old_channel),
    ("answer-34-file-new-channel", "34: a file on a channel that had none wants 17 octets more", new_channel),
    ("answer-34-first", "34: the first file of an empty catalogue, with an image and without", first),
    ("answer-34-greatest", "34: the file that makes the greatest catalogue of all, 22,723 octets, with 22,722 lent", to_the_greatest),
    ("answer-34-image", "34: a file with an image on a channel that has files wants 22 octets more", old_channel_image),
    ("answer-34-image-new-channel", "34: a file with an image on a channel that had none wants 25 octets more", new_channel_image),
    ("enter-behind-stays", "\"what is behind it stays\": octets behind the new end, inside what is lent and outside of it", behind),
];

fn begin(script: &mut ClerkScript) {
    script.lend(32_768, 0);
    script.write(&[0x5a; 12]);
    for lent in 0..=6 {
        script.lend(lent, 12);
        script.begin();
        script.show();
    }
    script.judge();
}

/// One octet too few for the file, then exactly enough.
fn at_the_edge(script: &mut ClerkScript, list: &[File], file: &File, more: usize) {
    let before = catalogue::written(list);
    let size = before.len();
    script.lend(32_768, 0);
    script.write(&[&before[..], &[0xee; 30]].concat());
    for lent in [size, size + 1, size + more - 1] {
        script.lend(lent, size as u64);
        between_shows(script, |script| script.enter_listed(file));
    }
    script.judge();
    script.lend(size + more, size as u64);
    between_shows(script, |script| script.enter_listed(file));
    script.judge();
    script.file(list.len() as u64);
    script.enter_listed(file);
    script.show();
}

fn old_channel(script: &mut ClerkScript) {
    at_the_edge(script, &four(), &text(), 14);
}

fn new_channel(script: &mut ClerkScript) {
    at_the_edge(script, &four(), &plain(facts(62, 9, 9, 9), 9), 17);
}

fn old_channel_image(script: &mut ClerkScript) {
    let file = picture(facts(40, 9, 9, 9), 8, 7, (6, 5));
    at_the_edge(script, &four(), &file, 22);
}

fn new_channel_image(script: &mut ClerkScript) {
    let file = picture(facts(0, 9, 9, 9), 8, 7, (6, 5));
    at_the_edge(script, &four(), &file, 25);
}

fn first(script: &mut ClerkScript) {
    at_the_edge(script, &[], &text(), 17);
    let file = picture(facts(9, 9, 9, 9), 8, 7, (6, 5));
    at_the_edge(script, &[], &file, 25);
}

fn to_the_greatest(script: &mut ClerkScript) {
    let list = pictures(1024, 63);
    let size = catalogue::written(&list[..1023]).len();
    script.holds_list(&list[..1023]);
    for lent in [size, 22_722, 22_723] {
        script.lend(lent, size as u64);
        script.enter_listed(&list[1023]);
        script.judge();
        script.show();
    }
    script.enter_listed(&list[1023]);
}

fn behind(script: &mut ClerkScript) {
    let before = catalogue::written(&four());
    let size = before.len();
    let marks: Vec<u8> = (1..=60).collect();
    for lent in [32_768, size + 30, size + 14] {
        script.lend(32_768, 0);
        script.write(&[&before, &marks[..]].concat());
        script.lend(lent, size as u64);
        script.enter_listed(&text());
        script.show();
        script.enter_listed(&text());
        script.show();
    }
    script.lend(32_768, 0);
    script.write(&[0x77; 100]);
    script.begin();
    script.show();
    script.poke(32_767, 0x99);
    script.enter_listed(&text());
    script.show();
    script.poke(32_767, 0);
}
