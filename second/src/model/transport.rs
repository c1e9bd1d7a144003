//! The transport file: bit length, need, rest and the shapes of its packets, 01, Packets, with
//! request 2/14 of 02: "Any L from 1 is good, and L/8 is rounded up wherever 01 has it".
//!
//! All arithmetic is in 128 bits, where no 64-bit bit length can overflow.

use crate::model::bits;
use crate::model::packet::{self, Flags};

/// "the 64-bit bit length L (octets 2 to 9, after the 16-bit file counter)"
pub const HEADER_SIZE: usize = 10;
pub const BLOCK_SIZE: usize = 8190;

/// The bit length in the data of a first or whole packet, absent "if the data is under 10
/// octets".
pub fn bit_length(data: &[u8]) -> Option<u64> {
    let field: [u8; 8] = data.get(2..HEADER_SIZE)?.try_into().ok()?;
    Some(u64::from_be_bytes(field))
}

/// Event 7 if L "is 0"; "Any L from 1 is good" (02, 2/14).
pub fn is_good_length(length: u64) -> bool {
    length != 0
}

/// L/8, which "is rounded up wherever 01 has it" (02, 2/14): the octets of the file.
pub fn file_octets(length: u64) -> u128 {
    bits::rounded_up_to_octets(length)
}

/// 10 + L/8, L/8 rounded up: the octets of the transport file.
pub fn transport_octets(length: u64) -> u128 {
    HEADER_SIZE as u128 + file_octets(length)
}

/// "The need is N = the quotient of 10 + L/8 by 8190, rounded up", L/8 rounded up before (O54).
pub fn need(length: u64) -> u128 {
    transport_octets(length).div_ceil(BLOCK_SIZE as u128)
}

/// "exactly the rest": the octets of data in the file's Nth packet.
pub fn rest(length: u64) -> u128 {
    transport_octets(length) - BLOCK_SIZE as u128 * (need(length) - 1)
}

/// "First: 8,190 octets and N at least 2."
pub fn first_has_shape(octets: usize, length: u64) -> bool {
    octets == BLOCK_SIZE && need(length) >= 2
}

/// "Whole: 10 + L/8 octets and N = 1", L/8 rounded up.
pub fn whole_has_shape(octets: usize, length: u64) -> bool {
    octets as u128 == transport_octets(length) && need(length) == 1
}

/// A packet that comes after `accepted` others of a file of bit length `length`.
#[derive(Clone, Copy, Debug)]
pub struct Next {
    pub octets: usize,
    pub length: u64,
    pub accepted: u16,
    pub last_count: u16,
    pub count: u16,
}

impl Next {
    fn follows(&self) -> bool {
        packet::count_follows(self.last_count, self.count)
    }

    fn is_the_nth(&self) -> bool {
        u128::from(self.accepted) + 1 == need(self.length)
    }

    /// "a middle packet has 8,190 octets and isn't the Nth"
    pub fn middle_has_shape(&self) -> bool {
        self.follows() && self.octets == BLOCK_SIZE && !self.is_the_nth()
    }

    /// "a last one is the Nth with exactly the rest"
    pub fn last_has_shape(&self) -> bool {
        self.follows() && self.is_the_nth() && self.octets as u128 == rest(self.length)
    }

    pub fn has_shape(&self, flags: Flags) -> bool {
        match flags {
            Flags::First => first_has_shape(self.octets, self.length),
            Flags::Whole => whole_has_shape(self.octets, self.length),
            Flags::Middle => self.middle_has_shape(),
            Flags::Last => self.last_has_shape(),
        }
    }
}
