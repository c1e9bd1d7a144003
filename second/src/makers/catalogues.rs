//! Stored catalogues: by chance, good ones and damaged ones, and the one that `printout` is given.

use std::io::Write;

use crate::makers::chance::Chance;
use crate::makers::make_catalogue::{facts, greatest, picture, plain, Sections};
use crate::model::catalogue::{self, File};
use crate::model::station::Facts;

/// Prints a stored catalogue, one time in four damaged.
pub fn run(seed: u64, out: &mut dyn Write) {
    let mut chance = Chance::new(seed);
    let list = some_list(&mut chance);
    let octets = match chance.one_in(4) {
        true => damaged(&mut chance, &list),
        false => catalogue::written(&list),
    };
    let _ = out.write_all(&octets);
}

/// A list of files: mostly a few, now and then none, or nearly as many as there may be.
pub fn some_list(chance: &mut Chance) -> Vec<File> {
    let (from, to) = chance.weighted(&[(2, (0, 1)), (8, (2, 12)), (6, (13, 60))]);
    let files = chance.between(from, to);
    match chance.below(12) {
        0 => full_list(chance),
        _ => files_by_chance(chance, files),
    }
}

/// 1,020 to 1,024 files, or the greatest catalogue.
pub fn full_list(chance: &mut Chance) -> Vec<File> {
    let files = chance.between(1020, 1024);
    match chance.one_in(3) {
        true => greatest().split_off(1024 - files as usize),
        false => files_by_chance(chance, files),
    }
}

fn files_by_chance(chance: &mut Chance, files: u64) -> Vec<File> {
    (0..files).map(|_| some_file(chance)).collect()
}

/// Numbers up to the greatest that the octets hold, small ones more often.
pub fn some_number(chance: &mut Chance, most: u64) -> u64 {
    let any = chance.between(0, most.min(u64::MAX - 1));
    let low = chance.below(300).min(most);
    chance.pick(&[any, any, low, low, 0, most])
}

/// Good facts of a file: few channels more often than all of them.
pub fn some_facts(chance: &mut Chance) -> Facts {
    let (few, any) = (chance.below(5) as u8, chance.below(63) as u8);
    let channel = chance.pick(&[few, few, few, any, any, 0, 62]);
    let application = some_number(chance, 2015) as u16;
    let counter = some_number(chance, 65_535) as u16;
    let length = some_number(chance, u64::MAX).max(1);
    facts(channel, application, counter, length)
}

/// A file that can stand in a catalogue, with an image more often than not.
pub fn some_file(chance: &mut Chance) -> File {
    let facts = some_facts(chance);
    let file_type = some_number(chance, 255) as u8;
    if chance.one_in(3) {
        return plain(facts, file_type);
    }
    let columns = some_number(chance, 65_535) as u16;
    let lines = some_number(chance, 65_535) as u16;
    let segment = match chance.one_in(2) {
        true => (0, 0),
        false => (chance.number() as u8, chance.number() as u8),
    };
    File {
        file_type,
        ..picture(facts, columns, lines, segment)
    }
}

/// What is no catalogue, or hardly one: a count that lies, entries exchanged, twice or missing,
/// octets changed, too few or too many.
pub fn damaged(chance: &mut Chance, list: &[File]) -> Vec<u8> {
    let mut sections = Sections::of(list);
    match chance.below(6) {
        0 => with_a_lying_count(chance, &sections),
        1 | 2 => {
            let section = chance.pick(&[0, 1, 2]);
            let entries = match section {
                0 => &mut sections.files,
                1 => &mut sections.images,
                _ => &mut sections.channels,
            };
            rearrange(chance, entries);
            sections.octets()
        }
        3 => {
            let mut octets = sections.octets();
            chance.damage(&mut octets);
            octets
        }
        4 => {
            let octets = sections.octets();
            let kept = chance.below(octets.len() as u64) as usize;
            octets[..kept].to_vec()
        }
        _ => {
            let more = chance.pick(&[1, 2, 3, 8, 14, 12_000]);
            let behind = chance.octets(more);
            [sections.octets(), behind].concat()
        }
    }
}

fn with_a_lying_count(chance: &mut Chance, sections: &Sections) -> Vec<u8> {
    let mut counts = sections.counts();
    let count = &mut counts[chance.below(3) as usize];
    let any = chance.number() as u16;
    let near = [count.wrapping_add(1), count.wrapping_sub(1)];
    *count = chance.pick(&[near[0], near[1], 0, 65_535, any]);
    sections.behind_counts(counts)
}

/// An entry left out, put down twice, exchanged with another, or damaged.
fn rearrange(chance: &mut Chance, entries: &mut Vec<Vec<u8>>) {
    if entries.is_empty() {
        return entries.push(chance.octets(3));
    }
    let [one, other] = [(); 2].map(|()| chance.below(entries.len() as u64) as usize);
    match chance.below(4) {
        0 => drop(entries.remove(one)),
        1 => entries.insert(one, entries[one].clone()),
        2 => entries.swap(one, other),
        _ => chance.damage(&mut entries[one]),
    }
}

/// What `printout` is given in the gate: ten files on five channels, images with segments and
/// without, and great lengths.
pub fn sample() -> Vec<u8> {
    let list = [
        picture(facts(5, 160, 12, 65_440), 2200, 220, (3, 10)),
        plain(facts(1, 32, 255, 12), 2),
        picture(facts(5, 160, 13, 65_441), 2200, 220, (4, 10)),
        picture(facts(0, 0, 0, 1), 0, 0, (0, 0)),
        plain(facts(62, 2015, 65_535, u64::MAX), 255),
        picture(
            facts(62, 2015, 256, 268_369_840),
            65_535,
            65_535,
            (255, 255),
        ),
        plain(facts(1, 33, 1, 1 << 63), 130),
        picture(
            facts(40, 1000, 1024, 0x0102_0304_0506_0708),
            1,
            256,
            (0, 10),
        ),
        picture(facts(1, 34, 258, 999_999_999_999), 1024, 1, (10, 0)),
        plain(facts(5, 161, 14, 8), 0),
    ];
    catalogue::written(&list)
}

pub fn write_sample(out: &mut dyn Write) {
    let _ = out.write_all(&sample());
}
