//! What a whole packet does to the files: 01, Packets, from "The rest is judged when the
//! packet is whole" on.

use crate::model::events::Event;
use crate::model::frame::Channel;
use crate::model::packet::{self, Application, Flags, Header, Kind};
use crate::model::station::{Slot, State};
use crate::model::transport::{self, Next, BLOCK_SIZE};

/// The files of a station while a frame of one channel is read.
pub struct Filing<'a> {
    state: &'a mut State,
    store: &'a mut [u8],
    channel: Channel,
    pub events: Vec<Event>,
}

impl<'a> Filing<'a> {
    pub fn new(state: &'a mut State, store: &'a mut [u8], channel: Channel) -> Filing<'a> {
        Filing {
            state,
            store,
            channel,
            events: Vec::new(),
        }
    }

    /// "Application 2047 is fill: skipped, no event. 2016 to 2046: event 13, skipped. Otherwise
    /// the last two octets are the CRC ... Wrong: event 4, no file touched".
    pub fn packet(&mut self, packet: &[u8]) {
        let header = packet::header(&packet[..packet::HEADER_SIZE]);
        match header.application.kind() {
            Kind::Fill => {}
            Kind::Other => self.events.push(Event::Reserved(header.application)),
            Kind::File => match packet::data_and_judgement(packet) {
                (data, true) => self.file_packet(&header, data),
                (_, false) => self.events.push(Event::WrongCrc(header.application)),
            },
        }
    }

    fn file_packet(&mut self, header: &Header, data: &[u8]) {
        match header.flags {
            Flags::First | Flags::Whole => {
                self.abandon_incomplete_file(header.application);
                let outcome = self.start(header, data);
                self.events.extend(outcome);
            }
            Flags::Middle | Flags::Last => {
                let event = self.go_on(header, data);
                self.events.push(event);
            }
        }
    }

    /// The slot of the incomplete file of this channel and the application.
    fn incomplete_file(&self, application: Application) -> Option<usize> {
        self.state.slots.iter().position(|file| {
            file.is_incomplete() && file.channel == self.channel && file.application == application
        })
    }

    /// "an incomplete file of the pair is abandoned, event 6, whatever follows"
    fn abandon_incomplete_file(&mut self, application: Application) {
        if let Some(slot) = self.incomplete_file(application) {
            self.state.free(slot);
            self.events.push(Event::Abandoned(application, slot as u16));
        }
    }

    /// Flags 1 or 3: event 7, "Then event 8 if all 32 slots are held; then event 9 if N exceeds
    /// the free blocks; otherwise" the file is opened, "event 10, and for a whole file event 12
    /// after it".
    fn start(&mut self, header: &Header, data: &[u8]) -> Vec<Event> {
        let application = header.application;
        let Some(length) = good_start(header.flags, data) else {
            return vec![Event::BadStart(application)];
        };
        let Some(slot) = self.state.slots.iter().position(|file| !file.is_held()) else {
            return vec![Event::NoSlot(application)];
        };
        let free = self.state.free_blocks();
        let taken = match usize::try_from(transport::need(length)) {
            Ok(need) if need <= free.len() => &free[..need],
            _ => return vec![Event::NoRoom(application)],
        };
        self.open(slot, taken, header, length);
        self.write(slot, 0, data);
        let opened = Event::Opened(application, slot as u16);
        match header.flags {
            Flags::Whole => vec![opened, Event::Completed(application, slot as u16)],
            _ => vec![opened],
        }
    }

    /// "the lowest free slot and the N lowest free blocks, in rising order"
    fn open(&mut self, slot: usize, taken: &[usize], header: &Header, length: u64) {
        for &block in taken {
            self.state.owners[block] = slot as u8 + 1;
        }
        self.state.slots[slot] = Slot {
            channel: self.channel,
            application: header.application,
            length,
            last_count: header.count,
            accepted: 1,
        };
    }

    /// Flags 0 or 2: "with no incomplete file: event 5. With one," the packet "is written into
    /// its block, event 11, or 12 for the last. If not, event 6."
    fn go_on(&mut self, header: &Header, data: &[u8]) -> Event {
        let application = header.application;
        let Some(slot) = self.incomplete_file(application) else {
            return Event::NoFile(application);
        };
        if !self.next(slot, header, data).has_shape(header.flags) {
            self.state.free(slot);
            return Event::Abandoned(application, slot as u16);
        }
        let place = usize::from(self.state.slots[slot].accepted);
        self.write(slot, place, data);
        self.state.slots[slot].accepted += 1;
        self.state.slots[slot].last_count = header.count;
        match header.flags {
            Flags::Last => Event::Completed(application, slot as u16),
            _ => Event::Continued(application, slot as u16),
        }
    }

    fn next(&self, slot: usize, header: &Header, data: &[u8]) -> Next {
        let file = &self.state.slots[slot];
        Next {
            octets: data.len(),
            length: file.length,
            accepted: file.accepted,
            last_count: file.last_count,
            count: header.count,
        }
    }

    /// "A packet's data is written from its block's start and the rest of the block stays."
    fn write(&mut self, slot: usize, place: usize, data: &[u8]) {
        let from = self.state.blocks_of(slot)[place] * BLOCK_SIZE;
        self.store[from..from + data.len()].copy_from_slice(data);
    }
}

/// Event 7 "if the data is under 10 octets, the 64-bit bit length L ... is 0 ..., or the shape is
/// wrong", where "Any L from 1 is good" (02, 2/14): otherwise the bit length.
fn good_start(flags: Flags, data: &[u8]) -> Option<u64> {
    let length = transport::bit_length(data)?;
    let has_shape = match flags {
        Flags::First => transport::first_has_shape(data.len(), length),
        _ => transport::whole_has_shape(data.len(), length),
    };
    Some(length).filter(|&length| transport::is_good_length(length) && has_shape)
}
