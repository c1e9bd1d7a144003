//! Pokes that are taken back, mostly.

use super::Maker;
use crate::makers::script::Field;
use crate::model::station::{Slot, State, DESK_SIZE, MOST_BLOCKS};

impl Maker {
    /// A field of the state changed once or more, judged, then put back, mostly.
    pub fn poke_state(&mut self) {
        let field = self.chance.pick(&FIELDS);
        let index = self.index_of(field);
        let old = value_of(self.state(), field, index);
        let mut numbers = edges(field).to_vec();
        numbers.extend([1, 2, 8].map(|step| old.wrapping_add(step)));
        numbers.extend([1, 8].map(|step| old.wrapping_sub(step)));
        numbers.extend([self.chance.below(64), self.chance.number()]);
        for _ in 0..self.chance.between(1, 3) {
            let number = self.chance.pick(&numbers);
            self.script.poke(field, index, number);
            self.judge();
        }
        if self.chance.one_in(3) {
            self.calls();
        }
        if !self.chance.one_in(12) {
            self.script.poke(field, index, old);
        }
    }

    /// Calls that change nothing: 2, or 11 and 3, unless memory is wrong. Where 2 is to come, the
    /// slot may be a held one.
    fn judge(&mut self) {
        self.carry_out();
        let slot = match self.unsound {
            0 => 32,
            _ => self.held_slot(),
        };
        match self.chance.below(4) {
            0 => self.script.read(slot, 0, 0),
            1 => self.script.facts(slot),
            _ => self.script.let_go(slot),
        }
        self.script.no_frame();
    }

    fn index_of(&mut self, field: Field) -> u16 {
        let blocks = u64::from(self.state().number_of_blocks).min(MOST_BLOCKS as u64);
        let channels = u64::from(self.state().number_of_channels).min(8);
        let held = self.slot(Slot::is_held);
        let chance = &mut self.chance;
        let any = chance.below(34) as u16;
        match field {
            Field::Channel | Field::Held | Field::Seen | Field::Counter => {
                chance.below(channels + 1) as u16
            }
            Field::Owner => chance.below(blocks + 2) as u16,
            _ => chance.pick(&[held, held, held, any]),
        }
    }

    /// An octet of a desk changed, judged, then put back, mostly.
    pub fn poke_desks(&mut self) {
        let desk = self.chance.below(self.senders.len() as u64 + 1) as usize;
        let held = self
            .state()
            .desks
            .get(desk)
            .map_or(0, |desk| usize::from(desk.held));
        let any = self.chance.below(DESK_SIZE as u64) as usize;
        let place = self.chance.pick(&[0, 1, 4, 5, held, held + 1, 8197, any]);
        let place = desk * DESK_SIZE + place;
        let old = self.trial.desk_octet(place);
        let octet = self.chance.number() as u8;
        self.script.poke_desks(place, octet);
        self.judge();
        if self.chance.one_in(3) {
            self.calls();
        }
        if !self.chance.one_in(8) {
            self.script.poke_desks(place, old);
        }
    }

    pub fn poke_store(&mut self) {
        let (_, store) = self.trial.lent();
        let place = self.chance.below(store as u64 + 2) as usize;
        let octet = self.chance.number() as u8;
        self.script.poke_store(place, octet);
    }
}

const FIELDS: [Field; 13] = [
    Field::Spacecraft,
    Field::NumberOfChannels,
    Field::Channel,
    Field::Held,
    Field::Seen,
    Field::Counter,
    Field::NumberOfBlocks,
    Field::Owner,
    Field::SlotChannel,
    Field::SlotApplication,
    Field::SlotLength,
    Field::SlotCount,
    Field::SlotAccepted,
];

/// Numbers on both sides of the lines that the rules draw for a field.
fn edges(field: Field) -> &'static [u64] {
    match field {
        Field::Spacecraft => &[0, 1, 255],
        Field::NumberOfChannels => &[0, 1, 8, 9, 255],
        Field::Channel | Field::SlotChannel => &[0, 1, 2, 3, 62, 63, 255],
        Field::Held => &[0, 1, 5, 6, 7, 8197, 8198, 65_535],
        Field::Seen => &[0, 1],
        Field::Counter => &[0, 1, (1 << 24) - 1, 1 << 24, 1 << 31],
        Field::NumberOfBlocks => &[0, 1, 4096, 4097, 65_535],
        Field::Owner => &[0, 1, 2, 3, 32, 33, 255],
        Field::SlotApplication => &[0, 1, 2, 3, 2015, 2016, 2047, 65_535],
        Field::SlotLength => &[
            0,
            1,
            8,
            12,
            65_433,
            65_440,
            65_441,
            65_448,
            130_960,
            130_961,
            u64::MAX - 7,
            u64::MAX,
        ],
        Field::SlotCount => &[0, 16_383, 16_384, 65_535],
        Field::SlotAccepted => &[0, 1, 2, 3, 65_535],
    }
}

/// What stands in a field of the state, 0 past an array.
fn value_of(state: &State, field: Field, index: u16) -> u64 {
    let index = usize::from(index);
    let desk = state.desks.get(index).cloned().unwrap_or_default();
    let slot = state.slots.get(index).cloned().unwrap_or_default();
    match field {
        Field::Spacecraft => u64::from(state.spacecraft),
        Field::NumberOfChannels => u64::from(state.number_of_channels),
        Field::Channel => state
            .channels
            .get(index)
            .map_or(0, |named| u64::from(named.0)),
        Field::Held => u64::from(desk.held),
        Field::Seen => u64::from(desk.seen),
        Field::Counter => u64::from(desk.last_counter),
        Field::NumberOfBlocks => u64::from(state.number_of_blocks),
        Field::Owner => state.owners.get(index).map_or(0, |&owner| u64::from(owner)),
        Field::SlotChannel => u64::from(slot.channel.0),
        Field::SlotApplication => u64::from(slot.application.0),
        Field::SlotLength => slot.length,
        Field::SlotCount => u64::from(slot.last_count),
        Field::SlotAccepted => u64::from(slot.accepted),
    }
}
