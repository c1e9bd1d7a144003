//! A station with its memory, and the packets that the cases are made of.

use second::makers::make::{self, File, PacketFields};
use second::model::frame::Channel;
use second::model::packet::{Application, Flags};
use second::model::station::{self, Refusal, State};

pub type Numbers = [u16; 3];

pub struct Station {
    pub state: State,
    pub desks: Vec<u8>,
    pub store: Vec<u8>,
    pub list: Vec<u16>,
}

impl Station {
    /// Spacecraft 1.
    pub fn new(channels: &[u8], blocks: usize) -> Station {
        let mut desks = vec![0x55; 8198 * channels.len()];
        let store = vec![0xaa; 8190 * blocks];
        let (state, answer) = station::set_up(1, channels, &mut desks, &store);
        assert_eq!(answer, Ok(()));
        Station {
            state,
            desks,
            store,
            list: vec![0x7777; 900],
        }
    }

    pub fn frame(&mut self, unit: &[u8]) -> Result<Vec<Numbers>, Refusal> {
        let (desks, store) = (&mut self.desks, &mut self.store);
        let count = station::frame(&mut self.state, desks, store, &mut self.list, unit)?;
        assert!(count <= 151);
        let events = self.list.chunks(3).take(count);
        Ok(events.map(|event| [event[0], event[1], event[2]]).collect())
    }

    /// The events of frames that must all be answered by 0.
    pub fn frames(&mut self, units: &[Vec<u8>]) -> Vec<Numbers> {
        units
            .iter()
            .flat_map(|unit| self.frame(unit).expect("answer 0"))
            .collect()
    }

    /// Frames of one channel behind the last one seen on it.
    pub fn packets(&mut self, channel: u8, packets: &[Vec<u8>]) -> Vec<Numbers> {
        let counter = self.next_counter(channel);
        self.frames(&make::frames(1, Channel(channel), counter, packets))
    }

    pub fn next_counter(&self, channel: u8) -> u32 {
        let index = self
            .state
            .watched()
            .iter()
            .position(|&named| named == Channel(channel));
        let desk = &self.state.desks[index.expect("a watched channel")];
        if desk.seen {
            (desk.last_counter + 1) % (1 << 24)
        } else {
            0
        }
    }

    pub fn held(&self, index: usize) -> usize {
        usize::from(self.state.desks[index].held)
    }
}

pub fn packet(application: u16, flags: Flags, count: u16, data: &[u8]) -> Vec<u8> {
    PacketFields::plain(Application(application), flags, count).packet(data)
}

pub fn file(channel: u8, application: u16, need: usize) -> File {
    File::of_need(Channel(channel), Application(application), need)
}

/// A packet with the wrong CRC.
pub fn damaged(mut packet: Vec<u8>) -> Vec<u8> {
    if let Some(last) = packet.last_mut() {
        *last ^= 1;
    }
    packet
}

/// One frame of channel `channel` with the packets given and fill behind them.
pub fn frame(channel: u8, counter: u32, pointer: u16, zone: &[u8]) -> Vec<u8> {
    make::frame(1, Channel(channel), counter, pointer, zone)
}
