//! The channel access unit: 01, Frames 1 to 3.

use crate::model::bits::Fields;
use crate::model::noise;

/// "Octets 0 to 3 are 1A CF FC 1D (001)."
pub const MARKER: [u8; 4] = [0x1a, 0xcf, 0xfc, 0x1d];
pub const SIZE: usize = 1024;
pub const HEADER_SIZE: usize = 8;
pub const ZONE_SIZE: usize = 884;
pub const CHECK_SIZE: usize = 128;
pub const VERSION: u8 = 1;
pub const COUNTER_MODULUS: u32 = 1 << 24;
/// The pointer that says that no packet header starts in the zone.
pub const NO_START: u16 = 2047;

/// A channel number: "different kinds of number and must not be interchangeable" (01).
#[derive(Clone, Copy, Debug, Default, PartialEq, Eq)]
pub struct Channel(pub u8);

impl Channel {
    /// "distinct channels 0 to 62"
    pub const HIGHEST: u8 = 62;
    /// "channel 63 (fill)"
    pub const FILL: Channel = Channel(63);
}

/// What stands between the marker and the zone.
#[derive(Clone, Debug, PartialEq, Eq)]
pub struct Header {
    pub version: u8,
    pub spacecraft: u8,
    pub channel: Channel,
    pub counter: u32,
    pub pointer: u16,
}

/// "2 bits version (1), 8 spacecraft, 6 channel, 24 frame counter, 8 signalling (ignored),
/// 5 spare (ignored), 11 pointer"
pub fn header(octets: &[u8]) -> Header {
    let mut fields = Fields::of(octets);
    let version = fields.cut(2) as u8;
    let spacecraft = fields.cut(8) as u8;
    let channel = Channel(fields.cut(6) as u8);
    let counter = fields.cut(24) as u32;
    let _signalling = fields.cut(8);
    let _spare = fields.cut(5);
    let pointer = fields.cut(11) as u16;
    Header {
        version,
        spacecraft,
        channel,
        counter,
        pointer,
    }
}

/// What a pointer means.
#[derive(Clone, Copy, Debug, PartialEq, Eq)]
pub enum Start {
    At(usize),
    Refused,
    Nowhere,
}

/// Refusal 9 is "pointer 884 to 2046"; reading begins "nowhere if it is 2047".
pub fn start(pointer: u16) -> Start {
    match pointer {
        NO_START => Start::Nowhere,
        _ if usize::from(pointer) < ZONE_SIZE => Start::At(usize::from(pointer)),
        _ => Start::Refused,
    }
}

/// "the pointer must be r if r is below 884, and 2047 otherwise"
pub fn start_wanted(lacked: usize) -> Start {
    if lacked < ZONE_SIZE {
        Start::At(lacked)
    } else {
        Start::Nowhere
    }
}

/// "the last plus 1 modulo 2^24"
pub fn counter_follows(last: u32, counter: u32) -> bool {
    (u64::from(last) + 1) % u64::from(COUNTER_MODULUS) == u64::from(counter)
}

pub fn has_marker(frame: &[u8]) -> bool {
    frame.starts_with(&MARKER)
}

/// "The other 1,020 are exclusive-ored with the pseudo-random sequence"
pub fn derandomised(frame: &[u8]) -> Vec<u8> {
    noise::exclusive_ored(frame.get(MARKER.len()..).unwrap_or(&[]))
}

/// The "884 octets of packet zone" of the 1,020 derandomised octets.
pub fn zone(derandomised: &[u8]) -> &[u8] {
    derandomised
        .get(HEADER_SIZE..HEADER_SIZE + ZONE_SIZE)
        .unwrap_or(&[])
}
