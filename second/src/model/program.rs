//! The small program of 01: "reads frames from standard input and prints what happened".

use std::io::{Read, Write};

use crate::model::frame;
use crate::model::station::{self, State, DESK_SIZE, LEAST_EVENT_NUMBERS};
use crate::model::transport::BLOCK_SIZE;

/// "The program uses spacecraft 1, channels 0 to 3, seven blocks."
const SPACECRAFT: u8 = 1;
const CHANNELS: [u8; 4] = [0, 1, 2, 3];
const BLOCKS: usize = 7;

/// A station with its memory.
struct Receiver {
    state: State,
    desks: Vec<u8>,
    store: Vec<u8>,
    list: Vec<u16>,
}

impl Receiver {
    fn new() -> Receiver {
        let mut desks = vec![0; DESK_SIZE * CHANNELS.len()];
        let store = vec![0; BLOCK_SIZE * BLOCKS];
        let (state, _) = station::set_up(SPACECRAFT, &CHANNELS, &mut desks, &store);
        Receiver {
            state,
            desks,
            store,
            list: vec![0; LEAST_EVENT_NUMBERS],
        }
    }

    /// "Per frame it prints F, index, answer, event count (0 if refused); per event E and its
    /// numbers"
    fn frame(&mut self, index: u64, unit: &[u8], out: &mut dyn Write) {
        let answer = station::frame(
            &mut self.state,
            &mut self.desks,
            &mut self.store,
            &mut self.list,
            unit,
        );
        let count = *answer.as_ref().unwrap_or(&0);
        let _ = writeln!(out, "F {index} {} {count}", station::number(&answer));
        write_events(&self.list, count, out);
    }
}

/// "per event E and its numbers"
pub fn write_events(list: &[u16], count: usize, out: &mut dyn Write) {
    for event in list.chunks_exact(3).take(count) {
        let _ = writeln!(out, "E {} {} {}", event[0], event[1], event[2]);
    }
}

/// Up to 1,024 octets; fewer only at the end of the input.
fn next_piece(input: &mut dyn Read) -> Vec<u8> {
    let mut piece = Vec::with_capacity(frame::SIZE);
    let _ = input.take(frame::SIZE as u64).read_to_end(&mut piece);
    piece
}

/// "at the end END, frames, octets left over": only whole pieces are frames (O80).
pub fn run(input: &mut dyn Read, out: &mut dyn Write) {
    let mut receiver = Receiver::new();
    let mut frames = 0u64;
    let left_over = loop {
        let piece = next_piece(input);
        if piece.len() < frame::SIZE {
            break piece.len();
        }
        receiver.frame(frames, &piece, out);
        frames += 1;
    };
    let _ = writeln!(out, "END {frames} {left_over}");
}
