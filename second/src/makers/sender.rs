//! A sender on one channel: files cut into packets that are sent in turn, with losses, damage
//! and strays among them, and zones cut off the string of packets.

use std::collections::VecDeque;

use crate::makers::chance::Chance;
use crate::makers::make::{self, PacketFields};
use crate::model::frame::{COUNTER_MODULUS, NO_START, ZONE_SIZE};
use crate::model::packet::{Application, Flags, COUNT_MODULUS};
use crate::model::transport::BLOCK_SIZE;

/// What the sender likes to begin.
#[derive(Clone, Copy, Debug, PartialEq, Eq)]
pub enum Start {
    Small,
    Medium,
    FullBlock,
    Long,
    TooLong,
    BadStart,
}

/// How often it begins what.
pub type Taste = &'static [(u64, Start)];

/// Where files are let go, so that many may be completed.
pub const MANY_FILES: Taste = &[
    (16, Start::Small),
    (16, Start::Medium),
    (1, Start::FullBlock),
    (3, Start::Long),
    (1, Start::TooLong),
    (6, Start::BadStart),
];

/// Where none is ever let go, so that whole files would soon fill the store.
pub const LONG_FILES: Taste = &[
    (1, Start::Small),
    (16, Start::Long),
    (2, Start::TooLong),
    (3, Start::BadStart),
];

#[derive(Clone, Copy)]
enum Next {
    OfFile,
    NewFile,
    Fill,
    Reserved,
    Stray,
    Again,
    EdgeHeader,
    ToTheEnd,
}

const TURNS: &[(u64, Next)] = &[
    (40, Next::OfFile),
    (24, Next::NewFile),
    (6, Next::Fill),
    (5, Next::Reserved),
    (4, Next::Stray),
    (2, Next::Again),
    (1, Next::EdgeHeader),
    (3, Next::ToTheEnd),
];

const MOST_FILES: usize = 3;

pub struct Sender {
    pub channel: u8,
    pub counter: u32,
    taste: Taste,
    /// Octets not yet sent, and where packets start in them.
    pending: Vec<u8>,
    starts: Vec<usize>,
    files: Vec<VecDeque<Vec<u8>>>,
    latest: Vec<u8>,
}

impl Sender {
    pub fn new(channel: u8, counter: u32, taste: Taste) -> Sender {
        Sender {
            channel,
            counter,
            taste,
            pending: Vec::new(),
            starts: Vec::new(),
            files: Vec::new(),
            latest: Vec::new(),
        }
    }

    /// The counter of the next frame, which is counted on.
    pub fn count(&mut self) -> u32 {
        let counter = self.counter;
        self.counter = (counter + 1) % COUNTER_MODULUS;
        counter
    }

    /// The next zone and its pointer.
    pub fn zone(&mut self, chance: &mut Chance) -> (u16, Vec<u8>) {
        while self.pending.len() < ZONE_SIZE {
            let packet = self.packet(chance);
            self.append(&packet);
        }
        let first = self.starts.first().copied().unwrap_or(ZONE_SIZE);
        let pointer = if first < ZONE_SIZE {
            first as u16
        } else {
            NO_START
        };
        let zone = self.pending.drain(..ZONE_SIZE).collect();
        let left = self.starts.iter().filter(|&&start| start >= ZONE_SIZE);
        self.starts = left.map(|start| start - ZONE_SIZE).collect();
        (pointer, zone)
    }

    /// Whether the next zone begins with a packet.
    pub fn is_between_packets(&self) -> bool {
        self.pending.is_empty() || self.starts.first() == Some(&0)
    }

    /// Forgets what was not yet sent, and sends these octets next: a packet, or the end of one
    /// whose start the station holds already. Fill ends the zone where there is room for it.
    pub fn begin_anew(&mut self, octets: &[u8], is_packet: bool) {
        self.pending = octets.to_vec();
        self.starts = if is_packet { vec![0] } else { Vec::new() };
        let left = ZONE_SIZE - octets.len() % ZONE_SIZE;
        if !octets.is_empty() && left >= 7 {
            self.append(&make::fill(left));
        }
    }

    /// A file to be sent among the others.
    pub fn add_file(&mut self, packets: Vec<Vec<u8>>) {
        self.files.push(packets.into());
    }

    fn append(&mut self, packet: &[u8]) {
        self.starts.push(self.pending.len());
        self.pending.extend(packet);
        self.latest = packet.to_vec();
    }

    fn packet(&mut self, chance: &mut Chance) -> Vec<u8> {
        self.files.retain(|file| !file.is_empty());
        let mut packet = match chance.weighted(TURNS) {
            Next::OfFile => self.packet_of_file(chance),
            Next::NewFile => {
                if self.files.len() < MOST_FILES {
                    let packets = new_file(chance, self.taste);
                    self.add_file(packets);
                }
                self.packet_of_file(chance)
            }
            Next::Fill => make::fill(chance.between(7, 400) as usize),
            Next::Reserved => reserved(chance),
            Next::Stray => stray(chance),
            Next::Again if self.latest.len() < 200 => self.latest.clone(),
            Next::Again => make::fill(7),
            Next::EdgeHeader => edge_header(chance),
            Next::ToTheEnd => self.to_the_end(chance),
        };
        if packet.is_empty() || chance.one_in(40) {
            packet = make::fill(chance.between(7, 60) as usize);
        }
        if chance.one_in(25) {
            let from = packet.len().min(6);
            chance.damage(&mut packet[from..]);
        }
        packet
    }

    /// Fill up to the zone's end, or to a few octets before it.
    fn to_the_end(&self, chance: &mut Chance) -> Vec<u8> {
        let left = ZONE_SIZE - self.pending.len() % ZONE_SIZE;
        make::fill(left.saturating_sub(chance.below(8) as usize).max(7))
    }

    /// The next packet of one of the files; now and then one is left out.
    fn packet_of_file(&mut self, chance: &mut Chance) -> Vec<u8> {
        let turn = chance.below(self.files.len() as u64) as usize;
        let Some(file) = self.files.get_mut(turn) else {
            return Vec::new();
        };
        if chance.one_in(30) {
            file.pop_front();
        }
        file.pop_front().unwrap_or_default()
    }
}

/// Few applications, so that files of the same pair meet; now and then the highest.
pub fn application(chance: &mut Chance) -> Application {
    Application(if chance.one_in(20) {
        chance.between(2000, 2015) as u16
    } else {
        chance.below(4) as u16
    })
}

/// Counts near their wrap as often as others.
pub fn count(chance: &mut Chance) -> u16 {
    let any = chance.below(u64::from(COUNT_MODULUS)) as u16;
    chance.pick(&[0, 1, 16_381, 16_382, 16_383, any])
}

fn new_file(chance: &mut Chance, taste: Taste) -> Vec<Vec<u8>> {
    let octets = match chance.weighted(taste) {
        Start::Small => chance.between(1, 60),
        Start::Medium => chance.between(61, 2000),
        Start::FullBlock => chance.between(BLOCK_SIZE as u64 - 12, BLOCK_SIZE as u64 - 8),
        Start::Long => long(chance),
        Start::TooLong => return vec![too_long(chance)],
        Start::BadStart => return vec![bad_start(chance)],
    };
    let octets = chance.octets(octets as usize);
    packets_of(chance, &octets)
}

/// A file's octets as packets of some application, counted from anywhere on. Now and then the
/// whole or last one has an octet too few or too many for the bit length.
fn packets_of(chance: &mut Chance, octets: &[u8]) -> Vec<Vec<u8>> {
    let counter = chance.number() as u16;
    let channel = crate::model::frame::Channel(0);
    let file = make::File::of(channel, application(chance), counter, octets);
    let mut file = file.with_filler(filler(chance));
    if chance.one_in(16) {
        let size = file.octets.len() - 1 + chance.pick(&[0, 2]);
        file.octets.resize(size, 0xff);
    }
    file.packets(count(chance))
}

/// The bits that fill up a file's last octet: of three files in ten the length is no multiple of
/// 8. The octets are by chance, and these bits with them.
pub fn filler(chance: &mut Chance) -> u64 {
    let bits = chance.between(1, 7);
    chance.weighted(&[(7, 0), (3, bits)])
}

/// Octets of a file of two to four packets, the last one short more often than not.
fn long(chance: &mut Chance) -> u64 {
    let blocks = chance.weighted(&[(4, 1), (4, 2), (1, 3)]);
    let any = chance.between(1, BLOCK_SIZE as u64);
    let rest = chance.pick(&[1, 2, 30, 200, any]);
    blocks * BLOCK_SIZE as u64 - 10 + rest
}

/// A first packet whose file needs more blocks than most stores have, or than any.
fn too_long(chance: &mut Chance) -> Vec<u8> {
    let blocks = chance.pick(&[4, 8, 65, 4096, 4097, 65_537, 1 << 40]);
    let length = (blocks * BLOCK_SIZE as u64 - 10) * 8;
    let length = chance.pick(&[length, length - 7, length + 1, u64::MAX - 7, u64::MAX]);
    let mut data = chance.octets(BLOCK_SIZE);
    data[2..10].copy_from_slice(&length.to_be_bytes());
    PacketFields::plain(application(chance), Flags::First, count(chance)).packet(&data)
}

/// A first or whole packet that gives event 7, or nearly does: its bit length is the greatest or
/// the least for its octets, or of an octet less or more, or any other.
fn bad_start(chance: &mut Chance) -> Vec<u8> {
    let size = chance.pick(&[1, 9, 10, 11, 12, 40]);
    let right = (size as u64).saturating_sub(10) * 8;
    let [least, less] = [7, 8].map(|bits| right.saturating_sub(bits));
    let lengths = [
        right,
        least,
        less,
        right + 1,
        right + 8,
        right + 4,
        0,
        12,
        65_441,
        65_448,
        chance.number(),
    ];
    let mut data = chance.octets(size);
    if size >= 10 {
        data[2..10].copy_from_slice(&chance.pick(&lengths).to_be_bytes());
    }
    let flags = chance.pick(&[Flags::First, Flags::Whole]);
    PacketFields::plain(application(chance), flags, count(chance)).packet(&data)
}

fn reserved(chance: &mut Chance) -> Vec<u8> {
    let application = Application(chance.between(2016, 2046) as u16);
    make::zeros(application, chance.pick(&[7, 7, 8, 30, 300]))
}

/// A header on one side or the other of the line between good and bad, and some octets.
fn edge_header(chance: &mut Chance) -> Vec<u8> {
    let application = Application(chance.pick(&[0, 2015, 2016, 2047]));
    let plain = PacketFields::plain(application, Flags::Whole, count(chance));
    let fields = PacketFields {
        version: chance.pick(&[0, 0, 0, 1, 4]),
        ..plain
    };
    let length = chance.pick(&[0, 1, 2, 3, 3, 2, 8191, 8192, 65_535]);
    let behind = chance.octets(usize::from(length).min(3) + 1);
    [fields.header(length), behind].concat()
}

/// A packet of any flags that belongs to no file, with type and secondary header flag at will.
fn stray(chance: &mut Chance) -> Vec<u8> {
    let flags = chance.pick(&[Flags::Middle, Flags::First, Flags::Last, Flags::Whole]);
    let plain = PacketFields::plain(application(chance), flags, count(chance));
    let fields = PacketFields {
        type_bit: chance.one_in(2),
        secondary_header: chance.one_in(2),
        ..plain
    };
    let size = chance.between(1, 30) as usize;
    fields.packet(&chance.octets(size))
}
