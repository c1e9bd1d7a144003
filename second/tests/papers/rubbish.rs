//! Rubbish off the dish: every run ends, and a state handed back untouched stays sound.

use second::makers::make::{self, PacketFields};
use second::model::frame::Channel;
use second::model::packet::{Application, Flags};
use second::model::station::{self, Refusal};
use second::model::{program, trial, vectors};

use crate::memory::Station;

/// A xorshift generator.
struct Chance(u64);

impl Chance {
    fn next(&mut self) -> u64 {
        self.0 ^= self.0 << 13;
        self.0 ^= self.0 >> 7;
        self.0 ^= self.0 << 17;
        self.0
    }

    fn below(&mut self, bound: u64) -> u64 {
        (self.next() >> 11) % bound
    }

    fn octets(&mut self, number: usize) -> Vec<u8> {
        (0..number).map(|_| self.next() as u8).collect()
    }

    /// From one octet to the number given.
    fn some_octets(&mut self, most: u64) -> Vec<u8> {
        let number = 1 + self.below(most) as usize;
        self.octets(number)
    }
}

#[test]
fn octets_as_scripts_and_frames() {
    let mut chance = Chance(0x1234_5678_9abc_def1);
    for size in 0..400 {
        let rubbish = chance.octets(size * 7);
        let mut out = Vec::new();
        trial::run(&rubbish, &mut out);
        vectors::run(&rubbish, &mut out);
        program::run(&mut &rubbish[..], &mut out);
    }
}

/// Packets that are good, or nearly.
fn some_packets(chance: &mut Chance) -> Vec<Vec<u8>> {
    let application = Application(chance.below(3) as u16);
    let flags = Flags::of(chance.below(4)).expect("two bits");
    let fields = PacketFields::plain(application, flags, chance.below(3) as u16);
    match chance.below(9) {
        0 => vec![make::fill(7 + chance.below(900) as usize)],
        1 => vec![make::zeros(Application(2016 + chance.below(31) as u16), 7)],
        2 => vec![chance.octets(9)],
        3..=5 => {
            let need = 1 + chance.below(4) as usize;
            let file = make::File::of_need(Channel(0), application, need);
            let file = file.with_filler(chance.below(8));
            file.packets(chance.below(3) as u16)
        }
        6 => {
            let octets = chance.some_octets(40);
            let file = make::File::of(Channel(0), application, 1, &octets);
            file.with_filler(chance.below(8)).packets(0)
        }
        _ => vec![fields.packet(&chance.some_octets(12))],
    }
}

/// Frames of a channel, some lost, some repeated, some damaged.
fn some_frames(chance: &mut Chance, channel: u8, counter: u32) -> Vec<Vec<u8>> {
    let packets: Vec<Vec<u8>> = (0..6).flat_map(|_| some_packets(chance)).collect();
    let mut frames = make::frames(1, Channel(channel), counter, &packets);
    for _ in 0..chance.below(3) {
        let which = chance.below(frames.len() as u64) as usize;
        match chance.below(3) {
            0 if frames.len() > 1 => drop(frames.remove(which)),
            1 => frames.insert(which, frames[which].clone()),
            _ => frames[which][chance.below(1024) as usize] ^= 1 << chance.below(8),
        }
    }
    frames
}

fn blocks_are_accounted_for(station: &Station) {
    let slots = &station.state.slots;
    let needs = slots.iter().filter(|file| file.is_held());
    let taken: u128 = needs
        .map(|file| second::model::transport::need(file.length))
        .sum();
    assert_eq!(taken + station.state.free_blocks().len() as u128, 9);
}

/// Lets some files go, complete ones more often than not.
fn make_room(chance: &mut Chance, station: &mut Station) {
    for slot in 0..33 {
        let file = station.state.slots.get(slot).cloned().unwrap_or_default();
        if chance.below(if file.is_complete() { 3 } else { 6 }) == 0 {
            let answer = station::let_go(&mut station.state, slot);
            let expected = file.is_held().then_some(file.is_complete());
            assert_eq!(answer, expected.ok_or(Refusal::NoHeldSlot));
        }
    }
}

#[test]
fn a_state_handed_back_untouched_is_never_answered_by_2() {
    let mut chance = Chance(0x0f1e_2d3c_4b5a_6978);
    let mut station = Station::new(&[0, 1], 9);
    let mut seen = [false; 14];
    for _ in 0..150 {
        let channel = chance.below(2) as u8;
        let counter = station.next_counter(channel);
        for unit in some_frames(&mut chance, channel, counter) {
            let events = station.frame(&unit);
            assert_ne!(events, Err(Refusal::NotSound));
            events
                .iter()
                .flatten()
                .for_each(|event| seen[usize::from(event[0])] = true);
            blocks_are_accounted_for(&station);
        }
        make_room(&mut chance, &mut station);
    }
    let unseen: Vec<usize> = (1..14).filter(|&kind| !seen[kind]).collect();
    assert_eq!(
        unseen,
        [8],
        "nine blocks never fill 32 slots, all else is met"
    );
}
