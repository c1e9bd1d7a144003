//! Packets: the six octets of the header and the CRC, 01, Packets.

use crate::model::bits::Fields;
use crate::model::crc;

pub const HEADER_SIZE: usize = 6;
pub const CRC_SIZE: usize = 2;
/// "A packet has 7 + length octets."
pub const SIZE_OF_LENGTH_0: usize = 7;
/// "length exceeds 8191" is bad.
pub const GREATEST_LENGTH: u16 = 8191;
/// "application is at most 2015 and length is below 2" is bad.
pub const LEAST_FILE_LENGTH: u16 = 2;
pub const COUNT_MODULUS: u16 = 16_384;

/// An application number: "different kinds of number and must not be interchangeable" (01).
#[derive(Clone, Copy, Debug, Default, PartialEq, Eq)]
pub struct Application(pub u16);

impl Application {
    pub const HIGHEST_FILE: u16 = 2015;
    pub const FILL: u16 = 2047;

    pub fn kind(self) -> Kind {
        match self.0 {
            0..=Application::HIGHEST_FILE => Kind::File,
            Application::FILL => Kind::Fill,
            _ => Kind::Other,
        }
    }
}

#[derive(Clone, Copy, Debug, PartialEq, Eq)]
pub enum Kind {
    File,
    Other,
    Fill,
}

/// The two sequence flags: "1 (first) or 3 (whole)", "0 (middle) or 2 (last)".
#[derive(Clone, Copy, Debug, PartialEq, Eq)]
pub enum Flags {
    Middle,
    First,
    Last,
    Whole,
}

impl Flags {
    pub fn of(two_bits: u64) -> Option<Flags> {
        match two_bits {
            0 => Some(Flags::Middle),
            1 => Some(Flags::First),
            2 => Some(Flags::Last),
            3 => Some(Flags::Whole),
            _ => None,
        }
    }

    pub fn number(self) -> u8 {
        match self {
            Flags::Middle => 0,
            Flags::First => 1,
            Flags::Last => 2,
            Flags::Whole => 3,
        }
    }
}

#[derive(Clone, Debug, PartialEq, Eq)]
pub struct Header {
    pub version: u8,
    pub application: Application,
    pub flags: Flags,
    pub count: u16,
    pub length: u16,
}

/// "Six octets: 3 bits version, type, flag, 11 application, 2 sequence flags, 14 count,
/// 16 length." Type and flag are not judged (O40).
pub fn header(octets: &[u8]) -> Header {
    let mut fields = Fields::of(octets);
    let version = fields.cut(3) as u8;
    let _type = fields.cut(1);
    let _secondary_header = fields.cut(1);
    let application = Application(fields.cut(11) as u16);
    let flags = Flags::of(fields.cut(2)).unwrap_or(Flags::Whole);
    let count = fields.cut(14) as u16;
    let length = fields.cut(16) as u16;
    Header {
        version,
        application,
        flags,
        count,
        length,
    }
}

impl Header {
    /// "The header is bad if version is not 0, length exceeds 8191, or application is at most
    /// 2015 and length is below 2."
    pub fn is_bad(&self) -> bool {
        let too_short_for_a_file =
            self.application.kind() == Kind::File && self.length < LEAST_FILE_LENGTH;
        self.version != 0 || self.length > GREATEST_LENGTH || too_short_for_a_file
    }

    pub fn size(&self) -> usize {
        SIZE_OF_LENGTH_0 + usize::from(self.length)
    }
}

/// "the last two octets are the CRC of the data before them, header not included": the data
/// of a whole packet, and whether its CRC is right.
pub fn data_and_judgement(packet: &[u8]) -> (&[u8], bool) {
    let behind_header = packet.get(HEADER_SIZE..).unwrap_or(&[]);
    let (data, sent) = behind_header.split_at(behind_header.len().saturating_sub(CRC_SIZE));
    (data, sent == crc::crc(data).to_be_bytes())
}

/// "the count must follow the last modulo 16,384"
pub fn count_follows(last: u16, count: u16) -> bool {
    (u32::from(last) + 1) % u32::from(COUNT_MODULUS) == u32::from(count)
}
