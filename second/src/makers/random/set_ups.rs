//! Set-ups of several shapes.

use super::Maker;
use crate::makers::sender::{Sender, MANY_FILES};
use crate::makers::stream;
use crate::model::station::DESK_SIZE;
use crate::model::transport::BLOCK_SIZE;

impl Maker {
    /// A set-up, good at the end; bad ones may come first.
    pub fn set_up(&mut self) {
        if self.chance.one_in(2) {
            self.bad_set_up();
        }
        let blocks = self
            .chance
            .pick(&[1, 2, 3, 5, 7, 7, 8, 12, 16, 20, 33, 40, 64]);
        self.set_up_with(blocks);
    }

    /// A good set-up of so many blocks.
    pub fn set_up_with(&mut self, blocks: usize) {
        let channels = self.channels();
        let any = self.chance.number() as u8;
        let spacecraft = self.chance.pick(&[0, 1, 1, 195, 255, any]);
        self.script
            .lend(DESK_SIZE * channels.len(), BLOCK_SIZE * blocks);
        self.script.set_up(spacecraft, &channels);
        self.carry_out();
        let chance = &mut self.chance;
        self.senders = channels
            .iter()
            .map(|&channel| Sender::new(channel, stream::first_counter(chance), MANY_FILES))
            .collect();
    }

    /// 1 to 8 distinct channels, low ones and few more often than not.
    fn channels(&mut self) -> Vec<u8> {
        let most = self.chance.pick(&[1, 2, 3, 4, 8]);
        let number = self.chance.between(1, most) as usize;
        let bound = self.chance.pick(&[8, 62]);
        let mut channels: Vec<u8> = Vec::new();
        while channels.len() < number {
            let channel = self.chance.below(bound) as u8;
            if !channels.contains(&channel) {
                channels.push(channel);
            }
        }
        channels
    }

    fn bad_set_up(&mut self) {
        let (desks, store) = self.trial.lent();
        let mut channels = self.channels();
        match self.chance.below(6) {
            0 => channels.push(self.chance.pick(&[63, 64, 128, 255])),
            1 => channels.push(channels[0]),
            2 => channels = (0..self.chance.pick(&[0, 9, 10, 64])).collect(),
            _ => {}
        }
        let lent = self.chance.pick(&[desks, DESK_SIZE * channels.len(), 1]);
        let store = self.chance.pick(&[store, 0, 1, BLOCK_SIZE - 1, BLOCK_SIZE]);
        self.script.lend(lent, store);
        self.script.set_up(1, &channels);
        self.calls();
    }
}
