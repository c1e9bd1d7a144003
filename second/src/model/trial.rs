//! The trial script: every public call of the station, driven from a file.

use std::io::Write;

use crate::model::bits::Fields;
use crate::model::crc;
use crate::model::frame::Channel;
use crate::model::packet::Application;
use crate::model::program::write_events;
use crate::model::station::{self, Desk, Facts, Slot, State, DESK_SIZE};
use crate::model::transport::BLOCK_SIZE;
use crate::model::vectors::hexadecimal;

/// "nine desks", "sixty-five blocks and one octet"
const DESKS_SIZE: usize = 9 * DESK_SIZE;
const STORE_SIZE: usize = 65 * BLOCK_SIZE + 1;

pub const COMMAND_SIZE: usize = 16;
const MOST_CHANNEL_OCTETS: usize = 64;
const MOST_EVENT_NUMBERS: usize = 1200;
const MOST_FRAME_OCTETS: usize = 2048;
const MOST_READ_OCTETS: usize = 16_384;

/// "letter (1), a (1), b (2), c (4), d (8)"
pub struct Command {
    pub letter: u8,
    pub a: u8,
    pub b: u16,
    pub c: u32,
    pub d: u64,
}

impl Command {
    pub fn of(octets: &[u8]) -> Command {
        let mut fields = Fields::of(octets);
        Command {
            letter: fields.cut(8) as u8,
            a: fields.cut(8) as u8,
            b: fields.cut(16) as u16,
            c: fields.cut(32) as u32,
            d: fields.cut(64),
        }
    }

    /// The octets of payload, none if the letter is not in the table or a limit is exceeded.
    fn payload(&self) -> Option<usize> {
        let (b, c) = (usize::from(self.b), self.c as usize);
        match self.letter {
            b'S' => (b <= MOST_CHANNEL_OCTETS).then_some(b),
            b'F' => (b <= MOST_EVENT_NUMBERS && c <= MOST_FRAME_OCTETS).then_some(c),
            b'R' => (c <= MOST_READ_OCTETS).then_some(0),
            b'M' | b'L' | b'P' | b'I' | b'Q' | b'H' => Some(0),
            _ => None,
        }
    }
}

/// The next command, its payload and what comes behind; none where the run ends.
fn next(script: &[u8]) -> Option<(Command, &[u8], &[u8])> {
    let command = Command::of(script.get(..COMMAND_SIZE)?);
    let end = COMMAND_SIZE + command.payload()?;
    let payload = script.get(COMMAND_SIZE..end)?;
    Some((command, payload, &script[end..]))
}

/// Carries out a script. "The last line is `END n m`".
pub fn run(script: &[u8], out: &mut dyn Write) {
    let mut trial = Trial::default();
    let mut left = script;
    let mut carried_out = 0u64;
    while let Some((command, payload, behind)) = next(left) {
        trial.carry_out(&command, payload, out);
        carried_out += 1;
        left = behind;
    }
    let _ = writeln!(out, "END {carried_out} {}", left.len());
}

/// The memory of a trial and its state, all zero at the start.
pub struct Trial {
    desks: Vec<u8>,
    store: Vec<u8>,
    desks_lent: usize,
    store_lent: usize,
    pub state: State,
}

impl Default for Trial {
    fn default() -> Trial {
        Trial {
            desks: vec![0; DESKS_SIZE],
            store: vec![0; STORE_SIZE],
            desks_lent: 0,
            store_lent: 0,
            state: State::all_zero(),
        }
    }
}

impl Trial {
    /// How many octets of desks and store are lent.
    pub fn lent(&self) -> (usize, usize) {
        (self.desks_lent, self.store_lent)
    }

    /// The octet of the desks at a place, 0 past them.
    pub fn desk_octet(&self, place: usize) -> u8 {
        self.desks.get(place).copied().unwrap_or(0)
    }

    /// Carries out commands up to what ends the run, but for `H`, which changes nothing, and
    /// prints nothing; gives their number.
    pub fn follow(&mut self, script: &[u8]) -> u64 {
        let mut left = script;
        let mut carried_out = 0;
        while let Some((command, payload, behind)) = next(left) {
            if command.letter != b'H' {
                self.carry_out(&command, payload, &mut std::io::sink());
            }
            carried_out += 1;
            left = behind;
        }
        carried_out
    }

    fn carry_out(&mut self, command: &Command, payload: &[u8], out: &mut dyn Write) {
        match command.letter {
            b'M' => self.lend(command),
            b'S' => self.set_up(command, payload, out),
            b'F' => self.frame(command, payload, out),
            b'R' => self.read(command, out),
            b'L' => self.let_go(command, out),
            b'I' => self.facts(command, out),
            b'P' => self.poke_memory(command),
            b'Q' => poke_state(&mut self.state, command),
            _ => self.show(out),
        }
    }

    /// "each cut down to the buffer"
    fn lend(&mut self, command: &Command) {
        let cut = |asked: u64, size: usize| usize::try_from(asked).map_or(size, |a| a.min(size));
        self.desks_lent = cut(u64::from(command.c), DESKS_SIZE);
        self.store_lent = cut(command.d, STORE_SIZE);
    }

    fn set_up(&mut self, command: &Command, channels: &[u8], out: &mut dyn Write) {
        let desks = &mut self.desks[..self.desks_lent];
        let store = &self.store[..self.store_lent];
        let (state, answer) = station::set_up(command.a, channels, desks, store);
        self.state = state;
        let _ = writeln!(out, "S {}", station::number(&answer));
    }

    fn frame(&mut self, command: &Command, unit: &[u8], out: &mut dyn Write) {
        let mut list = vec![0; usize::from(command.b)];
        let desks = &mut self.desks[..self.desks_lent];
        let store = &mut self.store[..self.store_lent];
        let answer = station::frame(&mut self.state, desks, store, &mut list, unit);
        let count = *answer.as_ref().unwrap_or(&0);
        let _ = writeln!(out, "F {} {count}", station::number(&answer));
        write_events(&list, count, out);
    }

    fn read(&self, command: &Command, out: &mut dyn Write) {
        let mut buffer = vec![0; command.c as usize];
        let store = &self.store[..self.store_lent];
        let slot = usize::from(command.b);
        let answer = station::read(&self.state, store, slot, command.d, &mut buffer);
        let _ = match answer {
            Ok(()) if !buffer.is_empty() => writeln!(out, "R 0 {}", hexadecimal(&buffer)),
            answer => writeln!(out, "R {}", station::number(&answer)),
        };
    }

    /// "`L answer`, and after 0 a space and 1 if the file was complete, else 0"
    fn let_go(&mut self, command: &Command, out: &mut dyn Write) {
        let answer = station::let_go(&mut self.state, usize::from(command.b));
        let _ = match answer {
            Ok(was_complete) => writeln!(out, "L 0 {}", u8::from(was_complete)),
            Err(_) => writeln!(out, "L {}", station::number(&answer)),
        };
    }

    /// "`I answer`, and after 0 a space and the channel, the application, the file counter and the
    /// length L of the file"
    fn facts(&self, command: &Command, out: &mut dyn Write) {
        let store = &self.store[..self.store_lent];
        let answer = station::facts(&self.state, store, usize::from(command.b));
        let _ = match &answer {
            Ok(facts) => writeln!(out, "I 0 {}", facts_words(facts)),
            Err(_) => writeln!(out, "I {}", station::number(&answer)),
        };
    }

    fn poke_memory(&mut self, command: &Command) {
        let memory = match command.a {
            0 => &mut self.desks,
            1 => &mut self.store,
            _ => return,
        };
        let index = usize::try_from(command.d).unwrap_or(usize::MAX);
        if let Some(octet) = memory.get_mut(index) {
            *octet = command.b as u8;
        }
    }

    fn show(&self, out: &mut dyn Write) {
        let desks = crc::crc(&self.desks[..self.desks_lent]);
        let store = crc::crc(&self.store[..self.store_lent]);
        let _ = writeln!(out, "H {desks} {store}");
        for (slot, file) in self.state.slots.iter().enumerate() {
            if *file != Slot::default() {
                let _ = writeln!(out, "{}", slot_line(&self.state, slot, file));
            }
        }
        for (channel, desk) in self.state.watched().iter().zip(self.state.watched_desks()) {
            let _ = writeln!(out, "{}", desk_line(*channel, desk));
        }
    }
}

fn facts_words(facts: &Facts) -> String {
    let (channel, application) = (facts.channel.0, facts.application.0);
    format!("{channel} {application} {} {}", facts.counter, facts.length)
}

/// `T slot channel application length count accepted`, and the blocks of the slot.
fn slot_line(state: &State, slot: usize, file: &Slot) -> String {
    let Slot {
        channel,
        application,
        length,
        last_count,
        accepted,
    } = file;
    let mut line = format!(
        "T {slot} {} {} {length} {last_count} {accepted}",
        channel.0, application.0
    );
    for block in state.blocks_of(slot) {
        line.push_str(&format!(" {block}"));
    }
    line
}

/// `K channel held seen counter`
fn desk_line(channel: Channel, desk: &Desk) -> String {
    format!(
        "K {} {} {} {}",
        channel.0,
        desk.held,
        u8::from(desk.seen),
        desk.last_counter
    )
}

/// "a field of the state becomes d, modulo the field's width": casts cut to the width.
fn poke_state(state: &mut State, command: &Command) {
    let d = command.d;
    let index = usize::from(command.b);
    match command.a {
        0 => state.spacecraft = d as u8,
        1 => state.number_of_channels = d as u8,
        2 => put(&mut state.channels, index, |channel| {
            *channel = Channel(d as u8)
        }),
        3 => put(&mut state.desks, index, |desk| desk.held = d as u16),
        4 => put(&mut state.desks, index, |desk| desk.seen = d != 0),
        5 => put(&mut state.desks, index, |desk| desk.last_counter = d as u32),
        6 => state.number_of_blocks = d as u16,
        7 => put(&mut state.owners, index, |owner| *owner = d as u8),
        8 => put(&mut state.slots, index, |file| {
            file.channel = Channel(d as u8)
        }),
        9 => put(&mut state.slots, index, |file| {
            file.application = Application(d as u16)
        }),
        10 => put(&mut state.slots, index, |file| file.length = d),
        11 => put(&mut state.slots, index, |file| file.last_count = d as u16),
        12 => put(&mut state.slots, index, |file| file.accepted = d as u16),
        _ => {}
    }
}

/// Changes one entry; "an index past the array ... does nothing".
fn put<T>(array: &mut [T], index: usize, change: impl FnOnce(&mut T)) {
    if let Some(entry) = array.get_mut(index) {
        change(entry);
    }
}
