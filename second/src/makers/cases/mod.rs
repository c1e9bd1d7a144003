//! The named cases of the trial script: each shows one thing and resets what it needs at its
//! start, so that any of them can stand behind one another.

mod answers;
mod desks;
mod ends;
mod errors;
mod events;
mod facts;
mod let_go;
mod lines;
mod pokes;
mod soundness;
mod storage;

use std::io::Write;

use crate::makers::make::PacketFields;
use crate::makers::script::{Held, Script};
use crate::model::packet::{Application, Flags};
use crate::model::transport::BLOCK_SIZE;

/// A case: its name, what it shows, and what makes its script.
pub struct Case {
    pub name: &'static str,
    pub shows: &'static str,
    pub make: fn(&mut Script),
}

impl Case {
    pub fn script(&self) -> Vec<u8> {
        let mut script = Script::new();
        (self.make)(&mut script);
        script.octets
    }

    /// Those that end the run stand behind all others, and those of the facts of a file before
    /// them, so that what was stored before request 5/14 is printed as before.
    fn part(&self) -> u8 {
        match self.name {
            name if name.starts_with(ends::PREFIX) => 2,
            name if name.starts_with(facts::PREFIX) => 1,
            _ => 0,
        }
    }
}

/// All cases in the order of their names, those of the facts of a file behind them, and last those
/// that end the run.
pub fn all() -> Vec<Case> {
    let mut cases: Vec<Case> = [
        answers::CASES,
        desks::CASES,
        ends::CASES,
        errors::CASES,
        events::CASES,
        facts::CASES,
        let_go::CASES,
        lines::CASES,
        pokes::CASES,
        soundness::CASES,
        storage::CASES,
    ]
    .into_iter()
    .flatten()
    .map(|&(name, shows, make)| Case { name, shows, make })
    .collect();
    cases.sort_by_key(|case| (case.part(), case.name));
    cases
}

/// Name, what it shows, and what makes it.
type Row = (&'static str, &'static str, fn(&mut Script));

pub fn write_names(out: &mut dyn Write) {
    for case in all() {
        let _ = writeln!(out, "{}", case.name);
    }
}

/// The page that says what each case shows.
pub fn write_page(out: &mut dyn Write) {
    let _ = out.write_all(PAGE.as_bytes());
    for case in all() {
        let _ = writeln!(out, "| `{}` | {} |", case.name, case.shows);
    }
}

const PAGE: &str = "# The cases

Scripts for `trial` (docs/TRIAL.md), each small and named for what it shows, and what must come out of it. `NAME.script` is what
`second case NAME` prints, `NAME.expected` what `second trial` makes of it; `tests/make-stored` writes both anew, and this page too. Each case
lends memory and sets up at its start, so that they can stand behind one another in any order; those that end the run come last. Octets
stay in the store from case to case, so that `H` and some reads print other numbers there than alone.
What stands in quotation marks is the rules paper, or request 2/14, 3/14 or 5/14 of the change requests (02) where that is named.

| case | shows |
|---|---|
";

/// The script of the case of this name.
pub fn write_case(name: &str, out: &mut dyn Write) -> bool {
    let Some(case) = all().into_iter().find(|case| case.name == name) else {
        return false;
    };
    let _ = out.write_all(&case.script());
    true
}

/// The bit length of a file of need `need` whose last packet has `rest` octets of data, none of
/// its bits to fill up the last one.
fn bits(need: u64, rest: u64) -> u64 {
    ((need - 1) * BLOCK_SIZE as u64 + rest - 10) * 8
}

fn packet(application: u16, flags: Flags, count: u16, data: &[u8]) -> Vec<u8> {
    PacketFields::plain(Application(application), flags, count).packet(data)
}

/// Octet k is k modulo 251.
fn octets(number: usize) -> Vec<u8> {
    crate::makers::make_header::data(number)
}

/// File counter 0, the bit length given, and octets behind them up to `size` octets of data.
fn start_data(length: u64, size: usize) -> Vec<u8> {
    let mut data = [&[0, 0][..], &length.to_be_bytes()].concat();
    data.extend(octets(size.saturating_sub(10)));
    data.truncate(size);
    data
}

/// Zeros between the first octets of data and the last 18, so that few of them need a poke.
fn sparse(mut data: Vec<u8>, kept: usize) -> Vec<u8> {
    let end = data.len() - 18;
    data[kept..end].fill(0);
    data
}

/// A first or whole packet of 8,190 octets of data, nearly all of them zero.
fn sparse_start(application: u16, flags: Flags, count: u16, length: u64) -> Vec<u8> {
    let data = sparse(start_data(length, BLOCK_SIZE), 10);
    packet(application, flags, count, &data)
}

/// A middle packet of `size` octets of data, nearly all of them zero.
fn sparse_middle(application: u16, count: u16, size: usize) -> Vec<u8> {
    packet(application, Flags::Middle, count, &sparse(octets(size), 0))
}

/// A first packet of 8,190 octets of data.
fn first(application: u16, count: u16, length: u64) -> Vec<u8> {
    let data = start_data(length, BLOCK_SIZE);
    packet(application, Flags::First, count, &data)
}

/// A middle packet of 8,190 octets of data.
fn middle(application: u16, count: u16) -> Vec<u8> {
    packet(application, Flags::Middle, count, &octets(BLOCK_SIZE))
}

fn last(application: u16, count: u16, rest: usize) -> Vec<u8> {
    packet(application, Flags::Last, count, &octets(rest))
}

/// A whole packet of a file of `size` octets, count 0.
fn whole(application: u16, size: usize) -> Vec<u8> {
    let data = start_data(size as u64 * 8, size + 10);
    packet(application, Flags::Whole, 0, &data)
}

/// A whole packet of any bit length, count 0, with these octets behind the ten of transport.
fn whole_of_bits(application: u16, length: u64, octets: &[u8]) -> Vec<u8> {
    let data = [&start_data(length, 10), octets].concat();
    packet(application, Flags::Whole, 0, &data)
}

/// A packet with the wrong CRC.
fn damaged(mut packet: Vec<u8>) -> Vec<u8> {
    if let Some(last) = packet.last_mut() {
        *last ^= 1;
    }
    packet
}

/// An incomplete file of need 2 in slot `slot` and blocks 2 slot and 2 slot + 1, whose first
/// packet had count 0; its last packet has one octet of data.
fn half(slot: u16, channel: u8, application: u16) -> Held {
    Held {
        slot,
        channel,
        application,
        length: bits(2, 1),
        count: 0,
        accepted: 1,
        blocks: vec![2 * slot, 2 * slot + 1],
    }
}

/// A complete file of one block.
fn complete(slot: u16, channel: u8, application: u16, block: u16) -> Held {
    Held {
        slot,
        channel,
        application,
        length: 80,
        count: 0,
        accepted: 1,
        blocks: vec![block],
    }
}
