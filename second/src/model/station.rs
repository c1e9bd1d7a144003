//! The station's state and its calls: 01, The station, and the table of answers.

use crate::model::bits::Fields;
use crate::model::frame::{self, Channel, Start};
use crate::model::packet::Application;
use crate::model::sound;
use crate::model::transport::{self, BLOCK_SIZE};
use crate::model::zone;

pub const MOST_CHANNELS: usize = 8;
pub const DESK_SIZE: usize = 8198;
pub const MOST_BLOCKS: usize = 4096;
pub const SLOTS: usize = 32;
/// Room for 300 events, three numbers each.
pub const LEAST_EVENT_NUMBERS: usize = 900;

/// The refusals of 01's table, in its order, but for the one that 02, 3/14, retired, and that of
/// begin (docs/STREAM.md).
#[derive(Clone, Copy, Debug, PartialEq, Eq)]
pub enum Refusal {
    Memory = 1,
    NotSound = 2,
    FrameSize = 3,
    Marker = 4,
    Version = 5,
    OtherSpacecraft = 6,
    FillChannel = 7,
    NotWatched = 8,
    Pointer = 9,
    SetUp = 10,
    NoHeldSlot = 11,
    Incomplete = 12,
    PastEnd = 14,
    WrongBits = 15,
}

/// The number of an answer: 0 for "done".
pub fn number<T>(answer: &Result<T, Refusal>) -> u16 {
    match answer {
        Ok(_) => 0,
        Err(refusal) => *refusal as u16,
    }
}

/// A file slot. It is held exactly if it has accepted a packet (O8).
#[derive(Clone, Debug, Default, PartialEq, Eq)]
pub struct Slot {
    pub channel: Channel,
    pub application: Application,
    pub length: u64,
    pub last_count: u16,
    pub accepted: u16,
}

impl Slot {
    pub fn is_held(&self) -> bool {
        self.accepted >= 1
    }

    /// "being complete exactly if p = N"
    pub fn is_complete(&self) -> bool {
        self.is_held() && u128::from(self.accepted) == transport::need(self.length)
    }

    pub fn is_incomplete(&self) -> bool {
        self.is_held() && !self.is_complete()
    }
}

/// What the state knows of a desk; the desk's octets are lent.
#[derive(Clone, Debug, Default, PartialEq, Eq)]
pub struct Desk {
    pub held: u16,
    pub seen: bool,
    pub last_counter: u32,
}

/// The state that is handed in and handed back.
#[derive(Clone, Debug, PartialEq, Eq)]
pub struct State {
    pub spacecraft: u8,
    pub number_of_channels: u8,
    pub channels: Vec<Channel>,
    pub desks: Vec<Desk>,
    pub number_of_blocks: u16,
    /// For each block 0 if it is free, else its slot plus 1.
    pub owners: Vec<u8>,
    pub slots: Vec<Slot>,
}

impl State {
    /// "a refused set-up's state is all zero"
    pub fn all_zero() -> State {
        State {
            spacecraft: 0,
            number_of_channels: 0,
            channels: vec![Channel::default(); MOST_CHANNELS],
            desks: vec![Desk::default(); MOST_CHANNELS],
            number_of_blocks: 0,
            owners: vec![0; MOST_BLOCKS],
            slots: vec![Slot::default(); SLOTS],
        }
    }

    /// The channels named; entries past their number are not judged (O6).
    pub fn watched(&self) -> &[Channel] {
        &self.channels[..usize::from(self.number_of_channels).min(MOST_CHANNELS)]
    }

    /// The desks of the channels named, in their order.
    pub fn watched_desks(&self) -> &[Desk] {
        &self.desks[..self.watched().len()]
    }

    /// The owners of the blocks lent; entries past their number are not judged (O6).
    pub fn lent_owners(&self) -> &[u8] {
        &self.owners[..usize::from(self.number_of_blocks).min(MOST_BLOCKS)]
    }

    fn blocks_with_owner(&self, owner: usize) -> Vec<usize> {
        let all = self.lent_owners().iter().enumerate();
        all.filter(|(_, &given)| usize::from(given) == owner)
            .map(|(block, _)| block)
            .collect()
    }

    /// The blocks of a slot in rising order: the block at index k stands at place k (O7).
    pub fn blocks_of(&self, slot: usize) -> Vec<usize> {
        self.blocks_with_owner(slot + 1)
    }

    pub fn free_blocks(&self) -> Vec<usize> {
        self.blocks_with_owner(0)
    }

    /// "An abandoned, dropped or released file frees its slot and blocks; block octets stay."
    /// Dropped and released are one since 02, 3/14: let go.
    pub fn free(&mut self, slot: usize) {
        for block in self.blocks_of(slot) {
            self.owners[block] = 0;
        }
        self.slots[slot] = Slot::default();
    }
}

/// Refusal 10: set-up names "1 to 8 distinct channels 0 to 62".
fn channels_are_good(channels: &[u8]) -> bool {
    let distinct = |(place, channel)| !channels[..place].contains(channel);
    (1..=MOST_CHANNELS).contains(&channels.len())
        && channels.iter().all(|&channel| channel <= Channel::HIGHEST)
        && channels.iter().enumerate().all(distinct)
}

/// "desks not 8,198 octets a channel"
fn desks_fit(desks: &[u8], number_of_channels: usize) -> bool {
    desks.len() == DESK_SIZE * number_of_channels
}

/// "store not whole blocks, 1 to 4,096": the number of blocks, if it is.
fn whole_blocks(store: &[u8]) -> Option<u16> {
    let blocks = store.len() / BLOCK_SIZE;
    let good = store.len().is_multiple_of(BLOCK_SIZE) && (1..=MOST_BLOCKS).contains(&blocks);
    u16::try_from(blocks).ok().filter(|_| good)
}

/// "as many as at set-up", by the number in the state as handed in (O10).
fn store_fits(state: &State, store: &[u8]) -> bool {
    whole_blocks(store) == Some(state.number_of_blocks)
}

/// Set-up. "at set-up 10 comes before 1"; "A fresh station has empty desks (all octets zero),
/// no held file, all blocks free; the store's octets are as lent."
pub fn set_up(
    spacecraft: u8,
    channels: &[u8],
    desks: &mut [u8],
    store: &[u8],
) -> (State, Result<(), Refusal>) {
    let mut state = State::all_zero();
    if !channels_are_good(channels) {
        return (state, Err(Refusal::SetUp));
    }
    let Some(blocks) = whole_blocks(store).filter(|_| desks_fit(desks, channels.len())) else {
        return (state, Err(Refusal::Memory));
    };
    state.spacecraft = spacecraft;
    state.number_of_channels = channels.len() as u8;
    state.number_of_blocks = blocks;
    for (named, &channel) in state.channels.iter_mut().zip(channels) {
        *named = Channel(channel);
    }
    desks.fill(0);
    (state, Ok(()))
}

/// A frame: "0 done; for a frame, with the number of events". "After 0 the events fill the
/// list from its start and the rest of it stays."
pub fn frame(
    state: &mut State,
    desks: &mut [u8],
    store: &mut [u8],
    list: &mut [u16],
    unit: &[u8],
) -> Result<usize, Refusal> {
    judge_memory_and_state(state, desks, store, list)?;
    let (header, derandomised) = judge_frame(state, unit)?;
    let events = zone::read(state, desks, store, &header, frame::zone(&derandomised));
    let numbers = events.iter().flat_map(|event| event.numbers());
    for (place, number) in list.iter_mut().zip(numbers) {
        *place = number;
    }
    Ok(events.len())
}

/// Refusals 1 and 2 of a frame, which is lent desks, store and event list.
fn judge_memory_and_state(
    state: &State,
    desks: &[u8],
    store: &[u8],
    list: &[u16],
) -> Result<(), Refusal> {
    let fits = desks_fit(desks, usize::from(state.number_of_channels))
        && store_fits(state, store)
        && list.len() >= LEAST_EVENT_NUMBERS;
    if !fits {
        return Err(Refusal::Memory);
    }
    if !sound::state_is_sound(state) || !sound::desks_are_sound(state, desks) {
        return Err(Refusal::NotSound);
    }
    Ok(())
}

/// Refusals 3 to 9, the lowest that applies.
fn judge_frame(state: &State, unit: &[u8]) -> Result<(frame::Header, Vec<u8>), Refusal> {
    if unit.len() != frame::SIZE {
        return Err(Refusal::FrameSize);
    }
    if !frame::has_marker(unit) {
        return Err(Refusal::Marker);
    }
    let derandomised = frame::derandomised(unit);
    let header = frame::header(&derandomised[..frame::HEADER_SIZE]);
    if header.version != frame::VERSION {
        return Err(Refusal::Version);
    }
    if header.spacecraft != state.spacecraft {
        return Err(Refusal::OtherSpacecraft);
    }
    if header.channel == Channel::FILL {
        return Err(Refusal::FillChannel);
    }
    if !state.watched().contains(&header.channel) {
        return Err(Refusal::NotWatched);
    }
    if frame::start(header.pointer) == Start::Refused {
        return Err(Refusal::Pointer);
    }
    Ok((header, derandomised))
}

/// Refusals 2 and 11, which reading a file and letting it go share: the number of a held slot.
fn held_slot(state: &State, slot: usize) -> Result<usize, Refusal> {
    if !sound::state_is_sound(state) {
        return Err(Refusal::NotSound);
    }
    match state.slots.get(slot) {
        Some(found) if found.is_held() => Ok(slot),
        _ => Err(Refusal::NoHeldSlot),
    }
}

/// Refusals 1, 2, 11 and 12, which a read and the facts of a file share: "12 stays for reads" (02,
/// 3/14), and both are lent the store.
fn complete_slot(state: &State, store: &[u8], slot: usize) -> Result<usize, Refusal> {
    if !store_fits(state, store) {
        return Err(Refusal::Memory);
    }
    let slot = held_slot(state, slot)?;
    if state.slots[slot].is_incomplete() {
        return Err(Refusal::Incomplete);
    }
    Ok(slot)
}

/// "A read copies file octets from a given offset (the ten transport octets don't count) to
/// fill a lent buffer; length 0 at the very end is allowed." The file's end has L/8 rounded up
/// (02, 2/14): the bits that fill up its last octet are read as they came (O56).
pub fn read(
    state: &State,
    store: &[u8],
    slot: usize,
    offset: u64,
    buffer: &mut [u8],
) -> Result<(), Refusal> {
    let slot = complete_slot(state, store, slot)?;
    let end = u128::from(offset) + buffer.len() as u128;
    if end > transport::file_octets(state.slots[slot].length) {
        return Err(Refusal::PastEnd);
    }
    let file = transport_file(state, store, slot);
    let from = transport::HEADER_SIZE + offset as usize;
    buffer.copy_from_slice(&file[from..from + buffer.len()]);
    Ok(())
}

/// What the catalogue keeps of a complete file (02, 5/14): "channel 1, application 2, file counter
/// 2, L 8".
#[derive(Clone, Debug, PartialEq, Eq)]
pub struct Facts {
    pub channel: Channel,
    pub application: Application,
    pub counter: u16,
    pub length: u64,
}

/// The facts of a complete file. Channel, application and L are in the state; the "16-bit file
/// counter" stands before L (01, Packets), so in the first two octets of the file's first block.
pub fn facts(state: &State, store: &[u8], slot: usize) -> Result<Facts, Refusal> {
    let slot = complete_slot(state, store, slot)?;
    let first = state.blocks_of(slot)[0] * BLOCK_SIZE;
    let counter = Fields::of(&store[first..first + 2]).cut(16);
    let file = &state.slots[slot];
    Ok(Facts {
        channel: file.channel,
        application: file.application,
        counter: counter as u16,
        length: file.length,
    })
}

/// The blocks of a slot one after the other, in the order of their places.
fn transport_file(state: &State, store: &[u8], slot: usize) -> Vec<u8> {
    let block_octets = |block: &usize| store[block * BLOCK_SIZE..].iter().take(BLOCK_SIZE);
    state
        .blocks_of(slot)
        .iter()
        .flat_map(block_octets)
        .copied()
        .collect()
}

/// 02, 3/14: "one operation that frees any held file and reports whether it was complete".
/// Refused, it "carries no other result and changes nothing" (01).
pub fn let_go(state: &mut State, slot: usize) -> Result<bool, Refusal> {
    let slot = held_slot(state, slot)?;
    let was_complete = state.slots[slot].is_complete();
    state.free(slot);
    Ok(was_complete)
}
