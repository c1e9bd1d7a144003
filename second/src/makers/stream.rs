//! A random stream of frames for the program: pictures over several channels, packets of files
//! in turn, lost frames, damage, wrong pointers, rubbish, other spacecraft, fill frames.

use std::io::Write;

use crate::makers::chance::Chance;
use crate::makers::make;
use crate::makers::sender::{Sender, LONG_FILES, MANY_FILES};
use crate::model::frame::{self, Channel};

/// What becomes of the next frame.
#[derive(Clone, Copy)]
enum Fate {
    Good,
    Lost,
    Damaged,
    WrongPointer,
    NoMarker,
    Rubbish,
    OtherVersion,
    OtherSpacecraft,
    FillFrame,
    NotWatched,
    BadPointer,
    SentAgain,
}

const FATES: &[(u64, Fate)] = &[
    (310, Fate::Good),
    (8, Fate::Lost),
    (8, Fate::Damaged),
    (10, Fate::WrongPointer),
    (4, Fate::NoMarker),
    (3, Fate::Rubbish),
    (2, Fate::OtherVersion),
    (3, Fate::OtherSpacecraft),
    (4, Fate::FillFrame),
    (4, Fate::NotWatched),
    (3, Fate::BadPointer),
    (3, Fate::SentAgain),
];

/// Counters to begin with, also shortly before their wrap.
pub fn first_counter(chance: &mut Chance) -> u32 {
    let any = chance.below(1 << 24) as u32;
    chance.pick(&[0, 1, any, 16_777_215, 16_777_210])
}

/// The next frame of a sender, or what chance makes of it. Lost frames are counted on, and the
/// next one is sent in their place.
pub fn next_frame(
    chance: &mut Chance,
    spacecraft: u8,
    sender: &mut Sender,
    last: &[u8],
) -> Vec<u8> {
    let fate = chance.weighted(FATES);
    if matches!(fate, Fate::SentAgain) && !last.is_empty() {
        return last.to_vec();
    }
    if let Some(frame) = odd_frame(chance, fate, spacecraft, sender.channel) {
        return frame;
    }
    if matches!(fate, Fate::Lost) {
        for _ in 0..chance.between(1, 3) {
            sender.zone(chance);
            sender.count();
        }
    }
    sent(chance, fate, spacecraft, sender)
}

/// A frame that has nothing of the sender's.
fn odd_frame(chance: &mut Chance, fate: Fate, spacecraft: u8, channel: u8) -> Option<Vec<u8>> {
    let zone = chance.octets(40);
    let frame = |version, spacecraft, channel, pointer| {
        make::frame_of_version(version, spacecraft, Channel(channel), 0, pointer, &zone)
    };
    Some(match fate {
        Fate::NoMarker if chance.one_in(2) => chance.octets(frame::SIZE),
        Fate::NoMarker => {
            let mut unit = frame(1, spacecraft, channel, 0);
            chance.damage(&mut unit[..frame::MARKER.len()]);
            unit
        }
        Fate::Rubbish => [&frame::MARKER[..], &chance.octets(frame::SIZE - 4)].concat(),
        Fate::OtherVersion => frame(chance.pick(&[0, 2, 3]), spacecraft, channel, 0),
        Fate::OtherSpacecraft => frame(1, spacecraft ^ 1, chance.pick(&[channel, 63]), 0),
        Fate::FillFrame => frame(1, spacecraft, 63, 0),
        Fate::NotWatched => frame(1, spacecraft, 62, 900),
        Fate::BadPointer => {
            let any = chance.between(884, 2046) as u16;
            frame(1, spacecraft, channel, chance.pick(&[884, 885, 2046, any]))
        }
        _ => return None,
    })
}

/// The sender's next zone in a frame, with the pointer or some octets changed.
fn sent(chance: &mut Chance, fate: Fate, spacecraft: u8, sender: &mut Sender) -> Vec<u8> {
    let (mut pointer, zone) = sender.zone(chance);
    if matches!(fate, Fate::WrongPointer) {
        let any = chance.below(884) as u16;
        pointer = chance.pick(&[0, any, 883, 2047, pointer.wrapping_add(1) % 884]);
    }
    let counter = sender.count();
    let mut frame = make::frame(spacecraft, Channel(sender.channel), counter, pointer, &zone);
    if matches!(fate, Fate::Damaged) {
        chance.damage(&mut frame[frame::MARKER.len()..]);
    }
    frame
}

/// Prints so many frames; some octets may be left over behind them.
pub fn run(seed: u64, frames: u64, out: &mut dyn Write) {
    let mut chance = Chance::new(seed);
    let mut senders: Vec<Sender> = (0..4)
        .map(|channel| {
            let taste = chance.weighted(&[(5, LONG_FILES), (1, MANY_FILES)]);
            Sender::new(channel, first_counter(&mut chance), taste)
        })
        .collect();
    let busy = chance.between(1, 4);
    let mut last = Vec::new();
    for _ in 0..frames {
        let sender = &mut senders[chance.below(busy) as usize];
        last = next_frame(&mut chance, 1, sender, &last);
        let _ = out.write_all(&last);
    }
    let left_over = chance.pick(&[0, 0, 1, 500, 1023]);
    let _ = out.write_all(&chance.octets(left_over));
}
