//! Frames out of a raw octet stream (docs/STREAM.md): the hunter and its two calls.
//!
//! What waits and the portion behind it are joined to one list and searched by place; bits are
//! compared as bit strings. Nothing is carried on from octet to octet.

use crate::model::bits;
use crate::model::frame::{self, MARKER};
use crate::model::station::Refusal;

/// "From 0 to 3 it answers 0", "Over 3 it answers 15".
pub const MOST_WRONG_BITS: u8 = 3;

/// "A hunter goes by value: whether it was begun, k (how many wrong bits a marker may have), how
/// many octets wait, and 1,024 octets: those that wait, and behind them zeros."
#[derive(Clone, Debug, PartialEq, Eq)]
pub struct Hunter {
    pub begun: bool,
    pub k: u8,
    pub waiting: u16,
    pub octets: [u8; frame::SIZE],
}

impl Hunter {
    /// "a hunter that is all zero: it was not begun, so it is not sound"
    pub fn all_zero() -> Hunter {
        Hunter {
            begun: false,
            k: 0,
            waiting: 0,
            octets: [0; frame::SIZE],
        }
    }

    /// The octets that wait; all 1,024 where the number is greater.
    pub fn waiting_octets(&self) -> &[u8] {
        let waiting = usize::from(self.waiting);
        self.octets.get(..waiting).unwrap_or(&self.octets)
    }

    /// The same hunter with these octets, under 1,024 of them, "and behind them zeros".
    fn with(&self, waiting: &[u8]) -> Hunter {
        let mut octets = [0; frame::SIZE];
        octets[..waiting.len()].copy_from_slice(waiting);
        Hunter {
            waiting: waiting.len() as u16,
            octets,
            ..*self
        }
    }

    /// "A hunter is sound exactly if", one function to a clause.
    pub fn is_sound(&self) -> bool {
        self.begun
            && self.its_k_is_at_most_3()
            && self.at_most_1023_octets_wait()
            && self.fewer_than_four_wait_or_a_marker_stands_first()
            && self.every_octet_behind_is_zero()
    }

    fn its_k_is_at_most_3(&self) -> bool {
        self.k <= MOST_WRONG_BITS
    }

    fn at_most_1023_octets_wait(&self) -> bool {
        usize::from(self.waiting) < frame::SIZE
    }

    /// "either fewer than four wait or the first four are a marker with at most k wrong bits"
    fn fewer_than_four_wait_or_a_marker_stands_first(&self) -> bool {
        let first = self.waiting_octets().get(..MARKER.len());
        first.is_none_or(|four| is_marker(four, self.k))
    }

    /// "every octet behind those that wait is zero"
    fn every_octet_behind_is_zero(&self) -> bool {
        let behind = &self.octets[self.waiting_octets().len()..];
        behind.iter().all(|&octet| octet == 0)
    }
}

/// How many of the bits of four octets "differ from those of 1A CF FC 1D".
pub fn wrong_bits(four: &[u8]) -> usize {
    let (came, sent) = (bits::string_of(four), bits::string_of(&MARKER));
    came.iter().zip(&sent).filter(|(a, b)| a != b).count()
}

/// "Four octets are a marker if at most k of their 32 bits differ from those of 1A CF FC 1D."
pub fn is_marker(four: &[u8], k: u8) -> bool {
    wrong_bits(four) <= usize::from(k)
}

/// "begin is given k": "a hunter that was begun, has that k and waits for its first octet", or
/// 15 and one that is all zero.
pub fn begin(k: u8) -> (Hunter, Result<(), Refusal>) {
    let zero = Hunter::all_zero();
    if k > MOST_WRONG_BITS {
        return (zero, Err(Refusal::WrongBits));
    }
    let begun = true;
    (Hunter { begun, k, ..zero }, Ok(()))
}

/// What a hunt that is not refused says: the octets of the portion that it took, and whether a
/// frame stands in the buffer.
#[derive(Clone, Copy, Debug, PartialEq, Eq)]
pub struct Hunted {
    pub taken: usize,
    pub found: bool,
}

/// "It answers 1 if the buffer has not 1,024 octets, else 2 if the hunter is not sound, else 0."
fn judged(hunter: &Hunter, buffer: &[u8]) -> Result<(), Refusal> {
    if buffer.len() != frame::SIZE {
        return Err(Refusal::Memory);
    }
    if !hunter.is_sound() {
        return Err(Refusal::NotSound);
    }
    Ok(())
}

/// Where hunting "from the first on" stops: at the first marker, or, where there is none, at the
/// place "with fewer than four octets from there on". All before it "is passed over".
fn stop(octets: &[u8], k: u8) -> usize {
    let mut fours = octets.windows(MARKER.len());
    fours
        .position(|four| is_marker(four, k))
        .unwrap_or(octets.len().saturating_sub(MARKER.len() - 1))
}

/// "its octets stand in the buffer, the first four put right (1A CF FC 1D)"
fn put(frame: &[u8], buffer: &mut [u8]) {
    buffer.copy_from_slice(frame);
    buffer[..MARKER.len()].copy_from_slice(&MARKER);
}

/// "hunt is given a hunter, a portion of any length, and a buffer for a frame."
pub fn hunt(
    hunter: &Hunter,
    portion: &[u8],
    buffer: &mut [u8],
) -> (Hunter, Result<Hunted, Refusal>) {
    if let Err(refusal) = judged(hunter, buffer) {
        return (hunter.clone(), Err(refusal));
    }
    let waited = hunter.waiting_octets();
    let joined = [waited, portion].concat();
    let place = stop(&joined, hunter.k);
    match joined[place..].get(..frame::SIZE) {
        // "the hunter then holds no octet, and the call says that it took the portion up to the
        // frame's last octet"
        Some(frame) => {
            put(frame, buffer);
            let taken = place + frame::SIZE - waited.len();
            (hunter.with(&[]), Ok(Hunted { taken, found: true }))
        }
        // "Without a frame all of the portion is taken and the buffer is as it was."
        None => {
            let (taken, found) = (portion.len(), false);
            (hunter.with(&joined[place..]), Ok(Hunted { taken, found }))
        }
    }
}
