//! The filter `hunt` (docs/STREAM.md): "reads raw octets from standard input and writes the
//! frames found, 1,024 octets each, to standard output".

use std::io::{Read, Write};

use crate::model::frame;
use crate::model::stream::{self, Hunted, Hunter};

/// Octets of a portion: any number gives the same frames, and this one keeps no step with them.
const PORTION: u64 = 777;

/// "K is one digit from 0 to 3; without an argument it is 0."
fn k_of(words: &[&str]) -> Option<u8> {
    match words {
        [] => Some(0),
        [digit @ ("0" | "1" | "2" | "3")] => digit.parse().ok(),
        _ => None,
    }
}

/// A hunter, and how many frames it has found.
struct Filter {
    hunter: Hunter,
    frames: u64,
}

impl Filter {
    /// "The rest of a portion is handed in again, with the hunter that came back."
    fn take(&mut self, portion: &[u8], out: &mut dyn Write) {
        let mut rest = portion;
        while !rest.is_empty() {
            let mut buffer = [0; frame::SIZE];
            let (hunter, answer) = stream::hunt(&self.hunter, rest, &mut buffer);
            self.hunter = hunter;
            let Ok(Hunted { taken, found }) = answer else {
                return;
            };
            if found {
                self.frames += 1;
                let _ = out.write_all(&buffer);
            }
            rest = &rest[taken..];
        }
    }
}

/// Up to a portion of octets; none only at the end of the input.
fn next_portion(input: &mut dyn Read) -> Vec<u8> {
    let mut portion = Vec::new();
    let _ = input.take(PORTION).read_to_end(&mut portion);
    portion
}

/// Frames go to `out`, and one line to `said`, which is standard error.
pub fn run(words: &[&str], input: &mut dyn Read, out: &mut dyn Write, said: &mut dyn Write) {
    let Some(k) = k_of(words) else {
        let _ = writeln!(said, "hunt: 15, k is 0 to 3");
        return;
    };
    let (hunter, _) = stream::begin(k);
    let mut filter = Filter { hunter, frames: 0 };
    let mut came = 0;
    loop {
        let portion = next_portion(input);
        if portion.is_empty() {
            break;
        }
        came += portion.len() as u64;
        filter.take(&portion, out);
    }
    let _ = out.flush();
    // "the frames found, the octets passed over, and the octets that wait"
    let (frames, waiting) = (filter.frames, u64::from(filter.hunter.waiting));
    let passed = came - frames * frame::SIZE as u64 - waiting;
    let _ = writeln!(said, "END {frames} {passed} {waiting}");
}
