//! The CRC of 01, Packets: "x^16+x^12+x^5+1, start all ones, most significant bit first, no
//! final inversion", as a division of polynomials over the two-element field.

use crate::model::bits;

/// x^16 + x^12 + x^5 + 1, the highest power first.
fn divisor() -> Vec<bool> {
    (0..=16)
        .rev()
        .map(|power| [16, 12, 5, 0].contains(&power))
        .collect()
}

/// The remainder's degree, and the number of its bits.
const DEGREE: usize = 16;

/// "start all ones": the first sixteen bits of the dividend are inverted.
fn start_all_ones(dividend: &mut [bool]) {
    for bit in dividend.iter_mut().take(DEGREE) {
        *bit = !*bit;
    }
}

/// Long division; the remainder is left in the last sixteen bits.
fn divide(dividend: &mut [bool]) {
    let divisor = divisor();
    for place in 0..dividend.len().saturating_sub(DEGREE) {
        if dividend[place] {
            for (bit, by) in dividend[place..].iter_mut().zip(&divisor) {
                *bit ^= by;
            }
        }
    }
}

/// The remainder of the octets times x^16.
pub fn crc(octets: &[u8]) -> u16 {
    let mut dividend = bits::string_of(octets);
    dividend.extend([false; DEGREE]);
    start_all_ones(&mut dividend);
    divide(&mut dividend);
    let remainder = &dividend[dividend.len() - DEGREE..];
    remainder
        .iter()
        .fold(0, |number, &bit| number << 1 | u16::from(bit))
}
