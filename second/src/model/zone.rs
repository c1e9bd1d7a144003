//! The reading of an accepted frame: 01, Frames 4 to 6.

use crate::model::events::Event;
use crate::model::files::Filing;
use crate::model::frame::{self, Header, Start};
use crate::model::packet;
use crate::model::station::{Desk, State, DESK_SIZE};

/// Reads the zone of a frame on a watched channel and gives its events in order (O34).
pub fn read(
    state: &mut State,
    desks: &mut [u8],
    store: &mut [u8],
    header: &Header,
    zone: &[u8],
) -> Vec<Event> {
    let Some(index) = state
        .watched()
        .iter()
        .position(|&channel| channel == header.channel)
    else {
        return Vec::new();
    };
    let octets = &mut desks[index * DESK_SIZE..(index + 1) * DESK_SIZE];
    let mut held = octets[..usize::from(state.desks[index].held)].to_vec();
    let gap = counter_gap(&state.desks[index], header);
    let mut filing = Filing::new(state, store, header.channel);
    if gap {
        filing.events.push(Event::CounterGap);
        held.clear();
    }
    let left = read_zone(&mut filing, &held, zone, frame::start(header.pointer));
    let events = filing.events;
    state.desks[index] = Desk {
        held: left.len() as u16,
        seen: true,
        last_counter: header.counter,
    };
    put_on_desk(octets, &left);
    events
}

/// Frames 4: "if a frame was seen before and the counter is not the last plus 1 modulo 2^24"
fn counter_gap(desk: &Desk, header: &Header) -> bool {
    desk.seen && !frame::counter_follows(desk.last_counter, header.counter)
}

/// What came of the octets held when they were carried on into the zone.
enum Carried {
    Dropped(Event),
    Whole(Vec<u8>),
    Unfinished(Vec<u8>),
}

/// Frames 5: the octets held "are carried on into the zone. When six are there, a bad header
/// gives event 3 and drops the packet. Else r is what the packet lacked at the zone's start".
fn carry_on(held: &[u8], zone: &[u8], start: Start) -> Carried {
    let mut joined = [held, zone].concat();
    let header = packet::header(&joined[..packet::HEADER_SIZE]);
    if header.is_bad() {
        return Carried::Dropped(Event::BadHeader);
    }
    let lacked = header.size().saturating_sub(held.len());
    if start != frame::start_wanted(lacked) {
        return Carried::Dropped(Event::PointerDiffers);
    }
    if header.size() > joined.len() {
        return Carried::Unfinished(joined);
    }
    joined.truncate(header.size());
    Carried::Whole(joined)
}

/// Frames 5 and 6: what is left to be held. A packet carried to its end ended at the pointer,
/// so that reading goes on there in every case.
fn read_zone(filing: &mut Filing, held: &[u8], zone: &[u8], start: Start) -> Vec<u8> {
    if !held.is_empty() {
        match carry_on(held, zone, start) {
            Carried::Dropped(event) => filing.events.push(event),
            Carried::Whole(packet) => filing.packet(&packet),
            Carried::Unfinished(joined) => return joined,
        }
    }
    match start {
        Start::At(pointer) => read_packets(filing, &zone[pointer..]),
        Start::Nowhere | Start::Refused => Vec::new(),
    }
}

/// Frames 6: "A bad header met later in the zone gives event 3 and drops the rest of the zone.
/// What is left unfinished at the zone's end is held."
fn read_packets(filing: &mut Filing, zone: &[u8]) -> Vec<u8> {
    let mut left = zone;
    while left.len() >= packet::HEADER_SIZE {
        let header = packet::header(&left[..packet::HEADER_SIZE]);
        if header.is_bad() {
            filing.events.push(Event::BadHeader);
            return Vec::new();
        }
        if header.size() > left.len() {
            break;
        }
        let (packet, after) = left.split_at(header.size());
        filing.packet(packet);
        left = after;
    }
    left.to_vec()
}

/// A desk has its held octets, and "zeros after them".
fn put_on_desk(octets: &mut [u8], left: &[u8]) {
    octets.fill(0);
    octets[..left.len()].copy_from_slice(left);
}
