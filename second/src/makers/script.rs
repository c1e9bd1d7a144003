//! Makes trial scripts.

use crate::makers::make;
use crate::model::frame::{Channel, COUNTER_MODULUS, ZONE_SIZE};
use crate::model::station::{DESK_SIZE, LEAST_EVENT_NUMBERS};
use crate::model::transport::BLOCK_SIZE;

/// The fields of the state that `Q` pokes, as the trial page numbers them.
#[derive(Clone, Copy, Debug, PartialEq, Eq)]
pub enum Field {
    Spacecraft = 0,
    NumberOfChannels = 1,
    Channel = 2,
    Held = 3,
    Seen = 4,
    Counter = 5,
    NumberOfBlocks = 6,
    Owner = 7,
    SlotChannel = 8,
    SlotApplication = 9,
    SlotLength = 10,
    SlotCount = 11,
    SlotAccepted = 12,
}

/// A file that is poked into the state.
#[derive(Clone, Debug)]
pub struct Held {
    pub slot: u16,
    pub channel: u8,
    pub application: u16,
    pub length: u64,
    pub count: u16,
    pub accepted: u16,
    pub blocks: Vec<u16>,
}

/// A script while it is made. Frames get their counters from here, so that none shows a gap
/// unless it is asked for.
pub struct Script {
    pub octets: Vec<u8>,
    next_counter: [u32; 64],
}

impl Script {
    pub fn new() -> Script {
        Script {
            octets: Vec::new(),
            next_counter: [0; 64],
        }
    }

    /// "letter (1), a (1), b (2), c (4), d (8)"
    pub fn command(&mut self, letter: u8, a: u8, b: u16, c: u32, d: u64) {
        self.octets.extend([letter, a]);
        self.octets.extend(b.to_be_bytes());
        self.octets.extend(c.to_be_bytes());
        self.octets.extend(d.to_be_bytes());
    }

    pub fn lend(&mut self, desks: usize, store: usize) {
        self.command(b'M', 0, 0, desks as u32, store as u64);
    }

    pub fn set_up(&mut self, spacecraft: u8, channels: &[u8]) {
        self.command(b'S', spacecraft, channels.len() as u16, 0, 0);
        self.octets.extend(channels);
        self.next_counter = [0; 64];
    }

    /// Lends what the channels and blocks ask for, and sets up spacecraft 1.
    pub fn fresh(&mut self, channels: &[u8], blocks: usize) {
        self.lend(DESK_SIZE * channels.len(), BLOCK_SIZE * blocks);
        self.set_up(1, channels);
    }

    /// The program's station: "spacecraft 1, channels 0 to 3, seven blocks".
    pub fn station(&mut self) {
        self.fresh(&[0, 1, 2, 3], 7);
    }

    /// Any octets as a frame, and a list of any length.
    pub fn unit(&mut self, event_numbers: u16, octets: &[u8]) {
        self.command(b'F', 0, event_numbers, octets.len() as u32, 0);
        self.octets.extend(octets);
    }

    /// Any octets as a frame.
    pub fn frame(&mut self, octets: &[u8]) {
        self.unit(LEAST_EVENT_NUMBERS as u16, octets);
    }

    /// A frame of no octets: answered by 3, or by 1 or 2 if one of these applies.
    pub fn no_frame(&mut self) {
        self.frame(&[]);
    }

    /// The next frame of a channel with a pointer and zone of any kind.
    pub fn zone(&mut self, channel: u8, pointer: u16, zone: &[u8]) {
        let counter = self.count_on(channel, 1);
        self.frame(&make::frame(1, Channel(channel), counter, pointer, zone));
    }

    /// The next frame of a channel: packets, and fill behind them.
    pub fn filled(&mut self, channel: u8, pointer: u16, zone: &[u8]) {
        let left = ZONE_SIZE - zone.len();
        let fill = if left < 7 {
            vec![0; left]
        } else {
            make::fill(left)
        };
        self.zone(channel, pointer, &[zone, &fill].concat());
    }

    /// The next frames of a channel, with packets one behind the other.
    pub fn packets(&mut self, channel: u8, packets: &[Vec<u8>]) {
        let counter = self.next_counter[usize::from(channel)];
        let frames = make::frames(1, Channel(channel), counter, packets);
        self.count_on(channel, frames.len() as u32);
        for frame in frames {
            self.frame(&frame);
        }
    }

    /// A frame after which these octets, at most 877, are what the desk holds.
    pub fn hold(&mut self, channel: u8, octets: &[u8]) {
        let fill = make::fill(ZONE_SIZE - octets.len());
        self.zone(channel, 0, &[&fill, octets].concat());
    }

    /// Frames of a channel that are lost; gives the counter of the first one.
    pub fn count_on(&mut self, channel: u8, frames: u32) -> u32 {
        let next = &mut self.next_counter[usize::from(channel)];
        let counter = *next;
        *next = (counter + frames) % COUNTER_MODULUS;
        counter
    }

    pub fn next_is(&mut self, channel: u8, counter: u32) {
        self.next_counter[usize::from(channel)] = counter;
    }

    pub fn read(&mut self, slot: u16, octets: u32, offset: u64) {
        self.command(b'R', 0, slot, octets, offset);
    }

    pub fn let_go(&mut self, slot: u16) {
        self.command(b'L', 0, slot, 0, 0);
    }

    /// The facts of the file of a slot.
    pub fn facts(&mut self, slot: u16) {
        self.command(b'I', 0, slot, 0, 0);
    }

    pub fn poke_desks(&mut self, index: usize, octet: u8) {
        self.command(b'P', 0, u16::from(octet), 0, index as u64);
    }

    pub fn poke_store(&mut self, index: usize, octet: u8) {
        self.command(b'P', 1, u16::from(octet), 0, index as u64);
    }

    pub fn poke(&mut self, field: Field, index: u16, number: u64) {
        self.command(b'Q', field as u8, index, 0, number);
    }

    pub fn show(&mut self) {
        self.command(b'H', 0, 0, 0, 0);
    }

    /// Pokes a file into slot and blocks that are free; what is 0 already is not poked.
    pub fn held(&mut self, file: &Held) {
        let fields = [
            (Field::SlotChannel, u64::from(file.channel)),
            (Field::SlotApplication, u64::from(file.application)),
            (Field::SlotLength, file.length),
            (Field::SlotCount, u64::from(file.count)),
            (Field::SlotAccepted, u64::from(file.accepted)),
        ];
        for (field, number) in fields.into_iter().filter(|&(_, number)| number != 0) {
            self.poke(field, file.slot, number);
        }
        for &block in &file.blocks {
            self.poke(Field::Owner, block, u64::from(file.slot) + 1);
        }
    }

    /// Pokes octets onto the desk of a channel, which holds nothing and stands at this index, as
    /// held after a frame whose counter was 0.
    pub fn carry(&mut self, channel: u8, octets: &[u8]) {
        self.on_desk(u16::from(channel), octets);
        self.poke(Field::Counter, u16::from(channel), 0);
        self.next_is(channel, 1);
    }

    /// A long packet in one frame: all but its last 20 octets are poked onto the desk of a
    /// channel that holds nothing and stands at this index.
    pub fn end_of(&mut self, channel: u8, packet: &[u8]) {
        let (held, rest) = packet.split_at(packet.len() - 20);
        self.carry(channel, held);
        self.filled(channel, 20, rest);
    }

    /// Pokes octets onto a desk that holds nothing; its zeros need no poke.
    pub fn on_desk(&mut self, desk: u16, octets: &[u8]) {
        for (place, &octet) in octets.iter().enumerate().filter(|(_, &octet)| octet != 0) {
            self.poke_desks(usize::from(desk) * DESK_SIZE + place, octet);
        }
        self.poke(Field::Held, desk, octets.len() as u64);
        self.poke(Field::Seen, desk, 1);
    }
}

impl Default for Script {
    fn default() -> Script {
        Script::new()
    }
}
