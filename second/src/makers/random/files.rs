//! Short ways to files of several packets: what would take ten frames a packet is poked.

use super::Maker;
use crate::makers::make::{self, PacketFields};
use crate::makers::script::{Field, Held};
use crate::makers::sender;
use crate::model::frame::{Channel, COUNTER_MODULUS, NO_START};
use crate::model::packet::{Flags, COUNT_MODULUS};
use crate::model::station::{Slot, SLOTS};
use crate::model::transport::{self, BLOCK_SIZE};

impl Maker {
    fn free_slot(&self) -> Option<u16> {
        let free = self.state().slots.iter().position(|file| !file.is_held());
        free.map(|slot| slot as u16)
    }

    /// A file of need 2 to 4 poked in but for its last packets, which are sent. Now and then it is
    /// read too early, or let go, so that its packets come too late.
    pub fn half_file(&mut self) {
        let turn = self.chance.below(self.senders.len() as u64) as usize;
        let free = self.state().free_blocks();
        let need = self.chance.between(2, 4) as usize;
        let fits = free.len() >= need && turn < self.senders.len();
        let (Some(slot), true) = (self.free_slot(), fits) else {
            return self.let_most_go();
        };
        let rest = self.chance.pick(&[1, 2, 9, 100]);
        let octets = self.chance.octets((need - 1) * BLOCK_SIZE - 10 + rest);
        let application = sender::application(&mut self.chance);
        let file = make::File::of(Channel(self.senders[turn].channel), application, 7, &octets)
            .with_filler(sender::filler(&mut self.chance));
        let accepted = if self.chance.one_in(3) { 1 } else { need - 1 };
        let first_count = sender::count(&mut self.chance);
        let packets = file.packets(first_count);
        let count = (first_count + accepted as u16 - 1) % COUNT_MODULUS;
        self.script.held(&Held {
            slot,
            channel: file.channel.0,
            application: application.0,
            length: file.bit_length,
            count,
            accepted: accepted as u16,
            blocks: free[..need].iter().map(|&block| block as u16).collect(),
        });
        self.senders[turn].add_file(packets[accepted..].to_vec());
        if self.chance.one_in(5) {
            self.script.read(slot, 1, 0);
        }
        if self.chance.one_in(5) {
            self.script.let_go(slot);
        }
    }

    /// Two to five packets of the files of a channel, each in one frame or two.
    pub fn long_file(&mut self) {
        let desk = self.chance.below(self.senders.len() as u64) as usize;
        for _ in 0..self.chance.between(2, 5) {
            if desk >= self.senders.len() || self.state().watched().len() != self.senders.len() {
                return self.frame();
            }
            if self.state().desks[desk].held != 0 || !self.senders[desk].is_between_packets() {
                self.begin_anew(desk);
            }
            if self.state().desks[desk].held != 0 {
                return;
            }
            self.next_packet(desk);
            self.frame_of(desk);
            self.carry_out();
        }
    }

    /// A frame behind a gap that starts no packet, so that nothing is held.
    fn begin_anew(&mut self, desk: usize) {
        let spacecraft = self.state().spacecraft;
        let sender = &mut self.senders[desk];
        sender.count();
        sender.begin_anew(&[], false);
        let (channel, counter) = (Channel(sender.channel), sender.count());
        self.last = make::frame(spacecraft, channel, counter, NO_START, &[]);
        self.script.frame(&self.last);
        self.carry_out();
    }

    /// Makes ready the next packet of an incomplete file of the channel, or a first one.
    fn next_packet(&mut self, desk: usize) {
        let channel = Channel(self.senders[desk].channel);
        let goes_on = |file: &&Slot| file.is_incomplete() && file.channel == channel;
        let file = self.state().slots.iter().find(goes_on).cloned();
        match file {
            Some(file) if self.chance.one_in(8) => self.first_packet(desk, file.application.0),
            Some(file) if is_last(&file) != self.chance.one_in(8) => self.last_packet(desk, &file),
            Some(file) => self.middle_packet(desk, &file),
            None => {
                let application = sender::application(&mut self.chance).0;
                self.first_packet(desk, application);
            }
        }
    }

    /// So many octets as a block has, or one less: zeros, with a few others at the end.
    fn zeros(&mut self) -> Vec<u8> {
        let size = BLOCK_SIZE - usize::from(self.chance.one_in(12));
        let mut data = vec![0; size];
        data[size - 3..].copy_from_slice(&self.chance.octets(3));
        data
    }

    fn first_packet(&mut self, desk: usize, application: u16) {
        let need = self.chance.pick(&[1, 2, 2, 3, 3, 3, 4, 8]);
        let flags = self
            .chance
            .weighted(&[(9, Flags::First), (1, Flags::Whole)]);
        let length = (need * BLOCK_SIZE as u64 - 10 - self.chance.below(90)) * 8;
        let length = length - sender::filler(&mut self.chance);
        let mut data = self.zeros();
        data[2..10].copy_from_slice(&length.to_be_bytes());
        let count = sender::count(&mut self.chance);
        let application = crate::model::packet::Application(application);
        let packet = PacketFields::plain(application, flags, count).packet(&data);
        self.on_desk(desk, &packet);
    }

    fn middle_packet(&mut self, desk: usize, file: &Slot) {
        let count = self.next_count(file);
        let data = self.zeros();
        let packet = PacketFields::plain(file.application, Flags::Middle, count).packet(&data);
        self.on_desk(desk, &packet);
    }

    fn last_packet(&mut self, desk: usize, file: &Slot) {
        let rest = transport::rest(file.length) as usize;
        let other = self.chance.pick(&[rest - 1, rest + 1]).clamp(1, BLOCK_SIZE);
        let size = self.chance.weighted(&[(10, rest), (1, other)]);
        let count = self.next_count(file);
        let data = self.chance.octets(size);
        let packet = PacketFields::plain(file.application, Flags::Last, count).packet(&data);
        self.senders[desk].begin_anew(&packet, true);
    }

    /// The count that follows, mostly.
    fn next_count(&mut self, file: &Slot) -> u16 {
        let step = self.chance.weighted(&[(12, 1), (1, 0), (1, 2)]);
        (file.last_count % COUNT_MODULUS + step) % COUNT_MODULUS
    }

    /// Pokes a packet onto an empty desk but for its last octets, which are sent next.
    fn on_desk(&mut self, desk: usize, packet: &[u8]) {
        let left = self.chance.pick(&[1, 2, 20, 877, 883, 884, 885, 900]);
        let (held, rest) = packet.split_at(packet.len() - left);
        let sender = &mut self.senders[desk];
        let last = (sender.counter + COUNTER_MODULUS - 1) % COUNTER_MODULUS;
        sender.begin_anew(rest, false);
        let desk = desk as u16;
        self.script.on_desk(desk, held);
        self.script.poke(Field::Counter, desk, u64::from(last));
        self.carry_out();
    }

    /// Whole files poked into all free slots but one or none, as far as there are blocks.
    pub fn full_slots(&mut self) {
        if self.state().free_blocks().len() < SLOTS {
            self.set_up_with(SLOTS + 6);
        }
        let free = self.state().free_blocks();
        let slots = self.state().slots.iter().enumerate();
        let empty: Vec<usize> = slots
            .filter(|(_, file)| !file.is_held())
            .map(|(slot, _)| slot)
            .collect();
        let channel = self.state().channels[0].0;
        let left = self.chance.below(2) as usize;
        for (&slot, &block) in empty.iter().zip(&free).skip(left) {
            let length = 80 - sender::filler(&mut self.chance);
            self.script.held(&Held {
                slot: slot as u16,
                channel,
                application: slot as u16,
                length,
                count: 0,
                accepted: 1,
                blocks: vec![block as u16],
            });
        }
    }
}

/// Whether the next packet of a file is its Nth.
fn is_last(file: &Slot) -> bool {
    transport::need(file.length) == u128::from(file.accepted) + 1
}
