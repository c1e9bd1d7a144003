//! Raw octet streams: frames and noise with no boundary between them, as a front end gives them.

use std::io::Write;

use crate::makers::chance::Chance;
use crate::makers::make;
use crate::model::bits;
use crate::model::frame::{self, Channel, MARKER};
use crate::model::stream::{is_marker, MOST_WRONG_BITS};

/// The marker with these of its 32 bits wrong; bit 0 is the first that is sent.
pub fn marker(wrong: &[usize]) -> Vec<u8> {
    let mut sent = bits::string_of(&MARKER);
    for &place in wrong {
        sent[place] = !sent[place];
    }
    bits::octets_of(&sent)
}

/// Octets by chance, of which no four in a row are a marker within three wrong bits.
pub fn quiet(chance: &mut Chance, number: usize) -> Vec<u8> {
    let mut octets: Vec<u8> = Vec::with_capacity(number);
    while octets.len() < number {
        octets.push(chance.number() as u8);
        let last = octets.last_chunk::<{ MARKER.len() }>();
        if last.is_some_and(|four| is_marker(four, MOST_WRONG_BITS)) {
            octets.pop();
        }
    }
    octets
}

/// A frame of this marker, quiet behind it.
pub fn frame_behind(marker: &[u8], chance: &mut Chance) -> Vec<u8> {
    let content = quiet(chance, frame::SIZE - marker.len());
    [marker, &content].concat()
}

/// A marker of 0 to 4 wrong bits, strewn over it or all in one octet.
pub fn some_marker(chance: &mut Chance) -> Vec<u8> {
    let number = chance.weighted(&[(6, 0), (3, 1), (3, 2), (3, 3), (3, 4)]);
    let octet = chance.below(MARKER.len() as u64);
    let near = chance.one_in(2);
    let mut wrong: Vec<usize> = Vec::new();
    while wrong.len() < number {
        let place = match near {
            true => octet * 8 + chance.below(8),
            false => chance.below(32),
        } as usize;
        if !wrong.contains(&place) {
            wrong.push(place);
        }
    }
    marker(&wrong)
}

/// What looks like a marker, or like a piece of one.
fn some_piece(chance: &mut Chance) -> Vec<u8> {
    let whole = some_marker(chance);
    let cut = chance.between(1, 3) as usize;
    match chance.below(4) {
        0 => whole[..cut].to_vec(),
        1 => whole[cut..].to_vec(),
        2 => [&whole[..cut], &MARKER].concat(),
        _ => whole,
    }
}

/// Writes up to so many pieces of markers over some of the octets.
fn strew(chance: &mut Chance, most: u64, octets: &mut [u8]) {
    for _ in 0..chance.below(most + 1) {
        let piece = some_piece(chance);
        let place = chance.below(octets.len() as u64) as usize;
        for (octet, of_piece) in octets.iter_mut().skip(place).zip(piece) {
            *octet = of_piece;
        }
    }
}

/// 0 to 2,000 octets, mostly few: by chance, all alike, or of the marker's own octets.
fn noise(chance: &mut Chance) -> Vec<u8> {
    let most = chance.weighted(&[(8, 0), (5, 10), (3, 200), (2, 2000)]);
    let number = chance.between(0, most) as usize;
    let mut octets = match chance.below(6) {
        0 => vec![chance.pick(&[0x00, 0xff, 0x1a, 0x1d]); number],
        1 => (0..number).map(|_| chance.pick(&MARKER)).collect(),
        _ => chance.octets(number),
    };
    strew(chance, 3, &mut octets);
    octets
}

/// A frame: octets by chance or a real one's, a marker of 0 to 4 wrong bits before them, at times
/// cut short, so that what comes behind it is taken for its end.
fn some_frame(chance: &mut Chance) -> Vec<u8> {
    let mut content = match chance.one_in(3) {
        true => {
            let (channel, counter) = (Channel(chance.below(64) as u8), chance.number() as u32);
            let zone = chance.octets(40);
            make::frame(1, channel, counter, 0, &zone)[MARKER.len()..].to_vec()
        }
        false => chance.octets(frame::SIZE - MARKER.len()),
    };
    strew(chance, 2, &mut content);
    if chance.one_in(10) {
        content.truncate(chance.below(content.len() as u64) as usize);
    }
    [some_marker(chance), content].concat()
}

/// About so many octets, cut somewhere in the last piece.
pub fn stream(chance: &mut Chance, octets: usize) -> Vec<u8> {
    let mut stream = Vec::new();
    let mut last = 0;
    while stream.len() < octets {
        last = stream.len();
        stream.extend(noise(chance));
        stream.extend(some_frame(chance));
    }
    let end = chance.between(last as u64, stream.len() as u64);
    stream.truncate(end as usize);
    stream
}

/// Prints a random raw stream.
pub fn run(seed: u64, octets: u64, out: &mut dyn Write) {
    let _ = out.write_all(&stream(&mut Chance::new(seed), octets as usize));
}
