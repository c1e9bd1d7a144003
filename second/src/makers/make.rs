//! Makes frames and packets: the inputs of tests and generators.
//!
//! Numbers are cut to the widths of their fields, so that bad headers can be made as well.

use crate::model::bits;
use crate::model::crc;
use crate::model::frame::{self, Channel, CHECK_SIZE, MARKER, NO_START, ZONE_SIZE};
use crate::model::noise;
use crate::model::packet::{self, Application, Flags, CRC_SIZE};
use crate::model::transport::{BLOCK_SIZE, HEADER_SIZE};

/// A frame: marker, then header, zone and check octets of zero, all three randomised. Signalling
/// and spare are 0; a zone under 884 octets is ended by zeros, one over it is cut.
pub fn frame(spacecraft: u8, channel: Channel, counter: u32, pointer: u16, zone: &[u8]) -> Vec<u8> {
    frame_of_version(frame::VERSION, spacecraft, channel, counter, pointer, zone)
}

/// A frame of any version.
pub fn frame_of_version(
    version: u8,
    spacecraft: u8,
    channel: Channel,
    counter: u32,
    pointer: u16,
    zone: &[u8],
) -> Vec<u8> {
    let mut header = Vec::new();
    bits::append(&mut header, u64::from(version), 2);
    bits::append(&mut header, u64::from(spacecraft), 8);
    bits::append(&mut header, u64::from(channel.0), 6);
    bits::append(&mut header, u64::from(counter), 24);
    bits::append(&mut header, 0, 8 + 5);
    bits::append(&mut header, u64::from(pointer), 11);
    let mut unit = bits::octets_of(&header);
    unit.extend(
        zone.iter()
            .copied()
            .chain(std::iter::repeat(0))
            .take(ZONE_SIZE),
    );
    unit.extend([0; CHECK_SIZE]);
    [&MARKER[..], &noise::exclusive_ored(&unit)[..]].concat()
}

/// The fields of a packet header but its length.
#[derive(Clone, Copy, Debug)]
pub struct PacketFields {
    pub version: u8,
    pub type_bit: bool,
    pub secondary_header: bool,
    pub application: Application,
    pub flags: Flags,
    pub count: u16,
}

impl PacketFields {
    /// Version 0, type 0, secondary header flag 0.
    pub fn plain(application: Application, flags: Flags, count: u16) -> PacketFields {
        let (version, type_bit, secondary_header) = (0, false, false);
        PacketFields {
            version,
            type_bit,
            secondary_header,
            application,
            flags,
            count,
        }
    }

    /// The six octets of the header with any length field.
    pub fn header(&self, length: u16) -> Vec<u8> {
        let mut header = Vec::new();
        bits::append(&mut header, u64::from(self.version), 3);
        bits::append(&mut header, u64::from(self.type_bit), 1);
        bits::append(&mut header, u64::from(self.secondary_header), 1);
        bits::append(&mut header, u64::from(self.application.0), 11);
        bits::append(&mut header, u64::from(self.flags.number()), 2);
        bits::append(&mut header, u64::from(self.count), 14);
        bits::append(&mut header, u64::from(length), 16);
        bits::octets_of(&header)
    }

    /// The packet of some data: header, data, CRC of the data.
    pub fn packet(&self, data: &[u8]) -> Vec<u8> {
        let length = data.len() + CRC_SIZE - 1;
        [
            &self.header(length as u16),
            data,
            &crc::crc(data).to_be_bytes(),
        ]
        .concat()
    }
}

/// A packet without CRC, zeros behind its header, of `size` octets (7 at least).
pub fn zeros(application: Application, size: usize) -> Vec<u8> {
    let length = size.saturating_sub(packet::SIZE_OF_LENGTH_0);
    let mut packet = PacketFields::plain(application, Flags::Whole, 0).header(length as u16);
    packet.extend(vec![0; length + 1]);
    packet
}

/// A fill packet of `size` octets (7 at least).
pub fn fill(size: usize) -> Vec<u8> {
    zeros(Application(Application::FILL), size)
}

/// A file as the sender has it.
#[derive(Clone, Debug)]
pub struct File {
    pub channel: Channel,
    pub application: Application,
    pub counter: u16,
    pub bit_length: u64,
    pub octets: Vec<u8>,
}

impl File {
    /// A file of whole octets.
    pub fn of(channel: Channel, application: Application, counter: u16, octets: &[u8]) -> File {
        let bit_length = octets.len() as u64 * 8;
        File {
            channel,
            application,
            counter,
            bit_length,
            octets: octets.to_vec(),
        }
    }

    /// The same octets, of whose last one so many bits, 0 to 7, only fill it up.
    pub fn with_filler(self, bits: u64) -> File {
        let bit_length = self.bit_length.saturating_sub(bits);
        File { bit_length, ..self }
    }

    /// A file of a need of `need` blocks, the last one full; octet k is k modulo 251.
    pub fn of_need(channel: Channel, application: Application, need: usize) -> File {
        let size = (need * BLOCK_SIZE).saturating_sub(HEADER_SIZE);
        let octets: Vec<u8> = (0..size).map(|k| (k % 251) as u8).collect();
        File::of(channel, application, 0, &octets)
    }

    /// The ten transport octets and the file's octets behind them.
    pub fn transport_file(&self) -> Vec<u8> {
        let counter = self.counter.to_be_bytes();
        [
            &counter[..],
            &self.bit_length.to_be_bytes()[..],
            &self.octets[..],
        ]
        .concat()
    }

    /// The file's packets in order: whole, or first, middle ones and last, counted from
    /// `first_count` on modulo 16,384.
    pub fn packets(&self, first_count: u16) -> Vec<Vec<u8>> {
        let transport = self.transport_file();
        let pieces: Vec<&[u8]> = transport.chunks(BLOCK_SIZE).collect();
        let packet = |(place, data): (usize, &&[u8])| {
            let flags = flags_at(place, pieces.len());
            let count = (usize::from(first_count) + place) % usize::from(packet::COUNT_MODULUS);
            PacketFields::plain(self.application, flags, count as u16).packet(data)
        };
        pieces.iter().enumerate().map(packet).collect()
    }
}

fn flags_at(place: usize, pieces: usize) -> Flags {
    match (place, place + 1 == pieces) {
        (0, true) => Flags::Whole,
        (0, false) => Flags::First,
        (_, true) => Flags::Last,
        (_, false) => Flags::Middle,
    }
}

/// Frames of one channel that carry packets one behind the other, with counters from
/// `first_counter` on; the last zone is made full by a fill packet, or by one that runs on into
/// a further zone made full by another where under 7 octets were left.
pub fn frames(
    spacecraft: u8,
    channel: Channel,
    first_counter: u32,
    packets: &[Vec<u8>],
) -> Vec<Vec<u8>> {
    let mut packets = packets.to_vec();
    loop {
        let size: usize = packets.iter().map(Vec::len).sum();
        match (ZONE_SIZE - size % ZONE_SIZE) % ZONE_SIZE {
            0 => break,
            left => packets.push(fill(left)),
        }
    }
    let octets = packets.concat();
    let starts = starts_of(&packets);
    let frame = |(index, zone): (usize, &[u8])| {
        let counter = (first_counter as usize + index) % frame::COUNTER_MODULUS as usize;
        frame(
            spacecraft,
            channel,
            counter as u32,
            pointer_at(&starts, index),
            zone,
        )
    };
    octets.chunks(ZONE_SIZE).enumerate().map(frame).collect()
}

fn starts_of(packets: &[Vec<u8>]) -> Vec<usize> {
    let sizes = packets.iter().map(Vec::len);
    sizes
        .scan(0, |end, size| Some(std::mem::replace(end, *end + size)))
        .collect()
}

/// The pointer of a zone: where the first packet that starts in it does, or 2047.
fn pointer_at(starts: &[usize], zone: usize) -> u16 {
    let (from, to) = (zone * ZONE_SIZE, (zone + 1) * ZONE_SIZE);
    let first = starts.iter().find(|&&start| (from..to).contains(&start));
    first.map_or(NO_START, |start| (start - from) as u16)
}

/// 01's example: "one frame on channel 2, pointer 0, with a whole packet (application 5,
/// L = 8) and one fill packet of 865 octets"; file counter 0, file octet 00, frame counter 0.
pub fn example_frame(secondary_header: bool) -> Vec<u8> {
    let file = File::of(Channel(2), Application(5), 0, &[0]);
    let plain = PacketFields::plain(file.application, Flags::Whole, 0);
    let whole = PacketFields {
        secondary_header,
        ..plain
    }
    .packet(&file.transport_file());
    frame(1, file.channel, 0, 0, &[whole, fill(865)].concat())
}
