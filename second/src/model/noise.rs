//! The pseudo-random sequence of 01, Frames 2 (101.0-B: x^8 + x^7 + x^5 + x^3 + 1).

/// A shift register of eight bits that holds s(n) to s(n+7), s(n) first.
struct Register {
    bits: [bool; 8],
}

impl Register {
    /// "bits s0 to s7 are 1"
    fn begun_anew() -> Register {
        Register { bits: [true; 8] }
    }

    /// "bit n+8 is the exclusive or of bits n+7, n+5, n+3 and n"; bit n leaves the register.
    fn shift(&mut self) -> bool {
        let [n, _, _, n3, _, n5, _, n7] = self.bits;
        self.bits.rotate_left(1);
        self.bits[7] = n7 ^ n5 ^ n3 ^ n;
        n
    }

    fn octet(&mut self) -> u8 {
        (0..8).fold(0, |octet, _| octet << 1 | u8::from(self.shift()))
    }
}

/// The first `number` octets of the sequence.
pub fn sequence(number: usize) -> Vec<u8> {
    let mut register = Register::begun_anew();
    (0..number).map(|_| register.octet()).collect()
}

/// Octets exclusive-ored with the sequence, begun anew. Doing it twice changes nothing.
pub fn exclusive_ored(octets: &[u8]) -> Vec<u8> {
    octets
        .iter()
        .zip(sequence(octets.len()))
        .map(|(octet, noise)| octet ^ noise)
        .collect()
}
