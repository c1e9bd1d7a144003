//! The chase script (docs/STREAM.md): the two calls of the hunter, driven from a file.

use std::io::Write;

use crate::model::crc;
use crate::model::station;
use crate::model::stream::{self, Hunted, Hunter};
use crate::model::trial::{Command, COMMAND_SIZE};

/// "a buffer of 2,048 octets"
const BUFFER_SIZE: usize = 2048;
/// "A script has at most 524,288 octets: only these are read."
pub const MOST_SCRIPT_OCTETS: usize = 524_288;
/// "c up to 8,192"
const MOST_PORTION_OCTETS: usize = 8192;

/// The octets of payload, none if the letter is not in the table or a limit is exceeded.
fn payload(command: &Command) -> Option<usize> {
    let (lent, portion) = (usize::from(command.b), command.c as usize);
    match command.letter {
        b'N' if lent <= BUFFER_SIZE && portion <= MOST_PORTION_OCTETS => Some(portion),
        b'B' | b'Q' | b'H' => Some(0),
        _ => None,
    }
}

/// The next command, its payload and what comes behind; none where the run ends.
fn next(script: &[u8]) -> Option<(Command, &[u8], &[u8])> {
    let (octets, behind) = script.split_at_checked(COMMAND_SIZE)?;
    let command = Command::of(octets);
    let (payload, behind) = behind.split_at_checked(payload(&command)?)?;
    Some((command, payload, behind))
}

/// Carries out a script. "The last line is `END n m`".
pub fn run(script: &[u8], out: &mut dyn Write) {
    let mut left = script.get(..MOST_SCRIPT_OCTETS).unwrap_or(script);
    let mut chase = Chase::default();
    let mut carried_out = 0u64;
    while let Some((command, payload, behind)) = next(left) {
        chase.carry_out(&command, payload, out);
        carried_out += 1;
        left = behind;
    }
    let _ = writeln!(out, "END {carried_out} {}", left.len());
}

/// "It owns a hunter, all zero at the start, and a buffer of 2,048 octets, all zero at the start
/// and never cleared."
struct Chase {
    hunter: Hunter,
    buffer: Vec<u8>,
}

impl Default for Chase {
    fn default() -> Chase {
        Chase {
            hunter: Hunter::all_zero(),
            buffer: vec![0; BUFFER_SIZE],
        }
    }
}

impl Chase {
    fn carry_out(&mut self, command: &Command, payload: &[u8], out: &mut dyn Write) {
        match command.letter {
            b'B' => self.begin(command, out),
            b'N' => self.hunt(command, payload, out),
            b'Q' => poke(&mut self.hunter, command.a, command.b, command.d),
            _ => self.show(out),
        }
    }

    /// "the hunter is then what begin gave, also after a refusal": `B answer`.
    fn begin(&mut self, command: &Command, out: &mut dyn Write) {
        let (hunter, answer) = stream::begin(command.a);
        self.hunter = hunter;
        let _ = writeln!(out, "B {}", station::number(&answer));
    }

    /// `N answer taken found check`, taken and found "both 0 after a refusal".
    fn hunt(&mut self, command: &Command, portion: &[u8], out: &mut dyn Write) {
        let lent = &mut self.buffer[..usize::from(command.b)];
        let (hunter, answer) = stream::hunt(&self.hunter, portion, lent);
        self.hunter = hunter;
        let nothing = Hunted {
            taken: 0,
            found: false,
        };
        let Hunted { taken, found } = *answer.as_ref().unwrap_or(&nothing);
        let (answer, found) = (station::number(&answer), u8::from(found));
        let check = crc::crc(&self.buffer);
        let _ = writeln!(out, "N {answer} {taken} {found} {check}");
    }

    /// `H begun k waiting check`
    fn show(&self, out: &mut dyn Write) {
        let Hunter {
            begun,
            k,
            waiting,
            octets,
        } = &self.hunter;
        let (begun, check) = (u8::from(*begun), crc::crc(octets));
        let _ = writeln!(out, "H {begun} {k} {waiting} {check}");
    }
}

/// "a field of the hunter becomes d, modulo the field's width": casts cut to the width. "an index
/// past them, or a over 3, does nothing".
pub fn poke(hunter: &mut Hunter, field: u8, index: u16, number: u64) {
    match field {
        0 => hunter.begun = number != 0,
        1 => hunter.k = number as u8,
        2 => hunter.waiting = number as u16,
        3 => {
            if let Some(octet) = hunter.octets.get_mut(usize::from(index)) {
                *octet = number as u8;
            }
        }
        _ => {}
    }
}
