//! Strings of bits. "Numbers are unsigned and most significant octet first" (01), and the
//! most significant bit of an octet comes first.

/// The bits of some octets, in the order in which they are sent.
pub fn string_of(octets: &[u8]) -> Vec<bool> {
    octets
        .iter()
        .flat_map(|octet| (0..8).rev().map(move |place| octet >> place & 1 == 1))
        .collect()
}

/// The number that a string of at most 64 bits writes.
pub fn number_of(bits: &[bool]) -> u64 {
    bits.iter()
        .fold(0, |number, &bit| number << 1 | u64::from(bit))
}

/// The octets of a string of bits; a last octet that is not full ends in zeros.
pub fn octets_of(bits: &[bool]) -> Vec<u8> {
    bits.chunks(8)
        .map(|chunk| {
            let written = chunk
                .iter()
                .fold(0u8, |octet, &bit| octet << 1 | u8::from(bit));
            written << (8 - chunk.len())
        })
        .collect()
}

/// So many bits "rounded up to octets" (01, the answer 26): the last octet is filled up "with 0 to
/// 7 bits" (02, 2/14). In 128 bits no sum can overflow.
pub fn rounded_up_to_octets(bits: u64) -> u128 {
    u128::from(bits).div_ceil(8)
}

/// Fields cut off a string of bits one after the other.
pub struct Fields {
    bits: Vec<bool>,
    place: usize,
}

impl Fields {
    pub fn of(octets: &[u8]) -> Fields {
        Fields {
            bits: string_of(octets),
            place: 0,
        }
    }

    /// The next field of `width` bits; bits past the end count as zeros.
    pub fn cut(&mut self, width: usize) -> u64 {
        let field: Vec<bool> = (self.place..self.place + width)
            .map(|place| self.bits.get(place).copied().unwrap_or(false))
            .collect();
        self.place += width;
        number_of(&field)
    }
}

/// Appends the low `width` bits of a number to a string of bits.
pub fn append(bits: &mut Vec<bool>, number: u64, width: u32) {
    bits.extend((0..width).rev().map(|place| number >> place & 1 == 1));
}

#[cfg(test)]
mod tests {
    use super::*;

    #[test]
    fn a_string_and_its_octets_are_each_others_inverse() {
        let octets = [0x1a, 0xcf, 0xfc, 0x1d, 0x00, 0xff];
        assert_eq!(octets_of(&string_of(&octets)), octets);
        assert_eq!(octets_of(&[true, false, true]), [0xa0]);
    }

    #[test]
    fn bits_fill_so_many_octets_as_their_string_has() {
        for bits in 0..100 {
            let octets = octets_of(&vec![true; bits]).len();
            assert_eq!(rounded_up_to_octets(bits as u64), octets as u128, "{bits}");
        }
    }

    #[test]
    fn no_number_of_bits_overflows() {
        for less in 0..7 {
            assert_eq!(rounded_up_to_octets(u64::MAX - less), 1 << 61, "{less}");
        }
        assert_eq!(rounded_up_to_octets(u64::MAX - 7), (1 << 61) - 1);
    }

    #[test]
    fn fields_are_cut_in_order_and_end_in_zeros() {
        let mut fields = Fields::of(&[0x40, 0x42]);
        assert_eq!((fields.cut(2), fields.cut(8), fields.cut(6)), (1, 1, 2));
        assert_eq!(fields.cut(64), 0);
    }
}
