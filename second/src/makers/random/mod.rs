//! A random trial script. A trial is carried out beside it while it is made, so that most
//! commands mean something: reads of files that are there, pokes that are taken back, and a
//! new set-up where the state would stay unsound.

mod files;
mod pokes;
mod set_ups;

use std::io::Write;

use crate::makers::chance::Chance;
use crate::makers::script::Script;
use crate::makers::sender::Sender;
use crate::makers::stream;
use crate::model::sound;
use crate::model::station::{Slot, State, DESK_SIZE, SLOTS};
use crate::model::transport::{self, BLOCK_SIZE};
use crate::model::trial::Trial;

/// What the next command is about.
#[derive(Clone, Copy)]
enum Turn {
    Frame,
    OddFrame,
    Read,
    Facts,
    LetGo,
    LetMostGo,
    Show,
    SetUp,
    Lend,
    PokeState,
    PokeDesks,
    PokeStore,
    HalfFile,
    LongFile,
    FullSlots,
}

const TURNS: &[(u64, Turn)] = &[
    (300, Turn::Frame),
    (14, Turn::OddFrame),
    (66, Turn::Read),
    (30, Turn::Facts),
    (37, Turn::LetGo),
    (16, Turn::LetMostGo),
    (8, Turn::Show),
    (4, Turn::SetUp),
    (8, Turn::Lend),
    (26, Turn::PokeState),
    (8, Turn::PokeDesks),
    (6, Turn::PokeStore),
    (32, Turn::HalfFile),
    (28, Turn::LongFile),
    (3, Turn::FullSlots),
];

/// Commands after which an unsound state is set up anew.
const PATIENCE: u32 = 12;

/// Prints a script of so many commands, or a few more.
pub fn run(seed: u64, commands: u64, out: &mut dyn Write) {
    let mut maker = Maker::new(seed);
    maker.set_up();
    while maker.commands < commands {
        maker.turn();
    }
    maker.script.show();
    maker.end();
    let _ = out.write_all(&maker.script.octets);
}

struct Maker {
    chance: Chance,
    script: Script,
    trial: Trial,
    /// Octets and commands of the script that were carried out.
    done: usize,
    commands: u64,
    unsound: u32,
    senders: Vec<Sender>,
    last: Vec<u8>,
}

impl Maker {
    fn new(seed: u64) -> Maker {
        Maker {
            chance: Chance::new(seed),
            script: Script::new(),
            trial: Trial::default(),
            done: 0,
            commands: 0,
            unsound: 0,
            senders: Vec::new(),
            last: Vec::new(),
        }
    }

    /// Carries out what was added to the script.
    fn carry_out(&mut self) {
        let added = self.script.octets[self.done..].to_vec();
        self.commands += self.trial.follow(&added);
        self.done = self.script.octets.len();
        self.unsound = if sound::state_is_sound(&self.trial.state) {
            0
        } else {
            self.unsound + 1
        };
    }

    fn state(&self) -> &State {
        &self.trial.state
    }

    fn turn(&mut self) {
        let turn = match self.unsound {
            PATIENCE.. => Turn::SetUp,
            _ => self.chance.weighted(TURNS),
        };
        match turn {
            Turn::Frame => self.frame(),
            Turn::OddFrame => self.odd_frame(),
            Turn::Read => self.read(),
            Turn::Facts => self.facts(),
            Turn::LetGo => self.let_go(),
            Turn::LetMostGo => self.let_most_go(),
            Turn::Show => self.script.show(),
            Turn::SetUp => self.set_up(),
            Turn::Lend => self.lend(),
            Turn::PokeState => self.poke_state(),
            Turn::PokeDesks => self.poke_desks(),
            Turn::PokeStore => self.poke_store(),
            Turn::HalfFile => self.half_file(),
            Turn::LongFile => self.long_file(),
            Turn::FullSlots => self.full_slots(),
        }
        self.carry_out();
        if self.chance.one_in(11) {
            self.script.show();
            self.carry_out();
        }
    }

    /// Nothing more, or a command cut short, or what ends the run.
    fn end(&mut self) {
        if self.chance.one_in(4) {
            return self.unknown_letter();
        }
        let left_over = self.chance.pick(&[0, 0, 3, 15]);
        let octets = self.chance.octets(left_over);
        self.script.octets.extend(octets);
    }

    /// A letter that is not in the table, more often than others the one that 02, 3/14, took out of
    /// it; were it carried out, the command behind it would show that.
    fn unknown_letter(&mut self) {
        let letter = self.chance.pick(b"DDDXlh\0\xff");
        let slot = self.slot(Slot::is_held);
        self.script.command(letter, 0, slot, 0, 0);
        self.script.show();
    }

    fn frame(&mut self) {
        let turn = self.chance.below(self.senders.len() as u64) as usize;
        self.frame_of(turn);
    }

    /// The next frame of a sender.
    fn frame_of(&mut self, turn: usize) {
        let spacecraft = self.trial.state.spacecraft;
        let Some(sender) = self.senders.get_mut(turn) else {
            return self.script.no_frame();
        };
        self.last = stream::next_frame(&mut self.chance, spacecraft, sender, &self.last);
        self.script.frame(&self.last);
    }

    /// A frame of another size, or a list of another length.
    fn odd_frame(&mut self) {
        let chance = &mut self.chance;
        match chance.below(3) {
            0 => {
                let numbers = chance.pick(&[0, 3, 898, 899, 900, 901, 1200]);
                self.script.unit(numbers, &self.last);
            }
            1 => {
                let any = chance.below(2049);
                let octets = chance.pick(&[0, 4, 1023, 1025, 2048, any]) as usize;
                let two = [&self.last[..], &self.last].concat();
                self.script.frame(&two[..octets.min(two.len())]);
            }
            _ => {
                let mut unit = self.last.clone();
                chance.damage(&mut unit);
                self.script.frame(&unit);
            }
        }
    }

    /// A slot for which a test holds, or any number.
    fn slot(&mut self, wanted: fn(&Slot) -> bool) -> u16 {
        let slots = &self.trial.state.slots;
        let found: Vec<u16> = (0..SLOTS as u16)
            .filter(|&slot| wanted(&slots[usize::from(slot)]))
            .collect();
        if found.is_empty() || self.chance.one_in(8) {
            let any = self.chance.number() as u16;
            let low = self.chance.below(40) as u16;
            return self.chance.pick(&[low, low, low, 32, any]);
        }
        self.chance.pick(&found)
    }

    /// A held slot, complete more often than not.
    fn held_slot(&mut self) -> u16 {
        match self.chance.below(6) {
            0 => self.slot(Slot::is_incomplete),
            _ => self.slot(Slot::is_complete),
        }
    }

    /// Mostly within the file; block borders, the file's end and what lies behind it too.
    fn read(&mut self) {
        let slot = self.held_slot();
        let file = self.trial.state.slots.get(usize::from(slot));
        let octets = file.map_or(0, |file| transport::file_octets(file.length) as u64);
        let chance = &mut self.chance;
        let any = chance.below(octets.saturating_add(1));
        let border = (chance.below(4) * BLOCK_SIZE as u64).saturating_sub(chance.between(8, 12));
        let past = wide_or(chance, &[octets.saturating_add(1), border]);
        let offset = chance.pick(&[0, any, any, border.min(octets), octets, past]);
        let left = octets.saturating_sub(offset).min(16_383);
        let some = chance.below(left.min(60) + 1);
        let length = chance.pick(&[some, some, some, some, left.min(300), 0, left, left + 1]);
        self.script.read(slot, length as u32, offset);
    }

    /// The facts of a file, incomplete now and then, or of a slot that is free, or of none.
    fn facts(&mut self) {
        let slot = match self.chance.below(8) {
            0 => self.slot(|file| !file.is_held()),
            _ => self.held_slot(),
        };
        self.script.facts(slot);
    }

    /// A file let go, incomplete now and then, or a slot that is free, or none.
    fn let_go(&mut self) {
        let slot = match self.chance.below(8) {
            0 => self.slot(|file| !file.is_held()),
            1..=3 => self.slot(Slot::is_incomplete),
            _ => self.slot(Slot::is_complete),
        };
        self.script.let_go(slot);
    }

    /// Most complete files, as a caller does who has read them and entered their facts.
    fn let_most_go(&mut self) {
        for slot in 0..SLOTS {
            if self.state().slots[slot].is_complete() && !self.chance.one_in(6) {
                if self.chance.one_in(2) {
                    self.script.facts(slot as u16);
                }
                self.script.let_go(slot as u16);
            }
        }
    }

    /// Memory of another size for one or two calls.
    fn lend(&mut self) {
        let (desks, store) = self.trial.lent();
        let by = self.chance.pick(&[0, 1, DESK_SIZE, BLOCK_SIZE]);
        let (less, more) = (|size: usize| size.saturating_sub(by), |size| size + by);
        match self.chance.below(4) {
            0 => self.script.lend(less(desks), store),
            1 => self.script.lend(more(desks), store),
            2 => self.script.lend(desks, less(store)),
            _ => self.script.lend(desks, more(store)),
        }
        self.calls();
        self.script.lend(desks, store);
    }

    /// One to three calls of any kind.
    fn calls(&mut self) {
        for _ in 0..self.chance.between(1, 3) {
            match self.chance.below(7) {
                0 => self.script.no_frame(),
                1 => self.frame(),
                2 => self.read(),
                3 | 4 => self.let_go(),
                5 => self.facts(),
                _ => self.script.show(),
            }
        }
    }
}

/// One of several numbers, or any other.
fn wide_or(chance: &mut Chance, numbers: &[u64]) -> u64 {
    match chance.one_in(3) {
        true => chance
            .pick(&[1, 5, u64::MAX / 3, u64::MAX])
            .wrapping_sub(chance.below(9)),
        false => chance.pick(numbers),
    }
}
