//! Makes chase scripts.

use crate::model::chase;
use crate::model::frame;
use crate::model::station::Refusal;
use crate::model::stream::{self, Hunted, Hunter};

/// The fields of the hunter that `Q` pokes, as the page numbers them.
#[derive(Clone, Copy, Debug, PartialEq, Eq)]
pub enum Field {
    Begun = 0,
    K = 1,
    Waiting = 2,
    Octet = 3,
}

/// A script while it is made, and the hunter as it stands behind what was made, so that the rest
/// of a portion can be handed in again.
pub struct ChaseScript {
    pub octets: Vec<u8>,
    pub commands: u64,
    pub hunter: Hunter,
}

impl ChaseScript {
    pub fn new() -> ChaseScript {
        ChaseScript {
            octets: Vec::new(),
            commands: 0,
            hunter: Hunter::all_zero(),
        }
    }

    /// "letter (1), a (1), b (2), c (4), d (8)", of which the hunter here hears nothing.
    pub fn command(&mut self, letter: u8, a: u8, b: u16, c: u32, d: u64) {
        self.octets.extend([letter, a]);
        self.octets.extend(b.to_be_bytes());
        self.octets.extend(c.to_be_bytes());
        self.octets.extend(d.to_be_bytes());
        self.commands += 1;
    }

    pub fn begin(&mut self, k: u8) {
        self.command(b'B', k, 0, 0, 0);
        self.hunter = stream::begin(k).0;
    }

    /// A hunt with a buffer of any size.
    pub fn hunt_into(&mut self, lent: u16, portion: &[u8]) -> Result<Hunted, Refusal> {
        self.command(b'N', 0, lent, portion.len() as u32, 0);
        self.octets.extend(portion);
        let mut buffer = vec![0; usize::from(lent)];
        let (hunter, answer) = stream::hunt(&self.hunter, portion, &mut buffer);
        self.hunter = hunter;
        answer
    }

    /// A hunt with a buffer for a frame.
    pub fn hunt(&mut self, portion: &[u8]) -> Result<Hunted, Refusal> {
        self.hunt_into(frame::SIZE as u16, portion)
    }

    /// "The rest of a portion is handed in again, with the hunter that came back."
    pub fn feed(&mut self, portion: &[u8]) {
        let mut rest = portion;
        while let Ok(Hunted { taken, found: true }) = self.hunt(rest) {
            rest = &rest[taken..];
            if rest.is_empty() {
                return;
            }
        }
    }

    pub fn poke(&mut self, field: Field, index: u16, number: u64) {
        self.command(b'Q', field as u8, index, 0, number);
        chase::poke(&mut self.hunter, field as u8, index, number);
    }

    /// Pokes octets that wait into a hunter for which none does; its zeros need no poke.
    pub fn wait_with(&mut self, octets: &[u8]) {
        for (place, &octet) in octets.iter().enumerate().filter(|(_, &octet)| octet != 0) {
            self.poke(Field::Octet, place as u16, u64::from(octet));
        }
        self.poke(Field::Waiting, 0, octets.len() as u64);
    }

    pub fn show(&mut self) {
        self.command(b'H', 0, 0, 0, 0);
    }
}

impl Default for ChaseScript {
    fn default() -> ChaseScript {
        ChaseScript::new()
    }
}
