//! A random chase script. The hunter is carried on beside it while it is made, so that most hunts
//! mean something: rests are handed in again, pokes are taken back, and a hunter that would stay
//! unsound is begun anew.

use std::io::Write;

use crate::makers::chance::Chance;
use crate::makers::chase_script::{ChaseScript, Field};
use crate::makers::raw;
use crate::model::chase::MOST_SCRIPT_OCTETS;
use crate::model::stream::{Hunted, Hunter};

/// What the next command is about.
#[derive(Clone, Copy)]
enum Turn {
    Portion,
    WrongBuffer,
    Begin,
    Show,
    Poke,
    Waiting,
}

const TURNS: &[(u64, Turn)] = &[
    (300, Turn::Portion),
    (12, Turn::WrongBuffer),
    (5, Turn::Begin),
    (14, Turn::Show),
    (40, Turn::Poke),
    (6, Turn::Waiting),
];

/// Commands after which an unsound hunter is begun anew.
const PATIENCE: u32 = 6;
/// Octets left for the end of the script, below what is read of it.
const END_ROOM: usize = 40_000;

/// Prints a script of so many commands, or a few more; fewer where it would grow too long.
pub fn run(seed: u64, commands: u64, out: &mut dyn Write) {
    let mut maker = Maker::new(seed);
    maker.begin();
    let most = MOST_SCRIPT_OCTETS - END_ROOM;
    while maker.script.commands < commands && maker.script.octets.len() < most {
        maker.turn();
    }
    maker.script.show();
    maker.end();
    let _ = out.write_all(&maker.script.octets);
}

struct Maker {
    chance: Chance,
    script: ChaseScript,
    /// The stream from what is not handed in yet.
    stream: Vec<u8>,
    unsound: u32,
}

impl Maker {
    fn new(seed: u64) -> Maker {
        Maker {
            chance: Chance::new(seed),
            script: ChaseScript::new(),
            stream: Vec::new(),
            unsound: 0,
        }
    }

    fn turn(&mut self) {
        let turn = match self.unsound {
            PATIENCE.. => Turn::Begin,
            _ => self.chance.weighted(TURNS),
        };
        match turn {
            Turn::Portion => self.portion(),
            Turn::WrongBuffer => self.wrong_buffer(),
            Turn::Begin => self.begin(),
            Turn::Show => self.script.show(),
            Turn::Poke => self.poke(),
            Turn::Waiting => self.waiting(),
        }
        let sound = self.script.hunter.is_sound();
        self.unsound = if sound { 0 } else { self.unsound + 1 };
    }

    /// A begin that is good at the end; a refused one may come first.
    fn begin(&mut self) {
        if self.chance.one_in(3) {
            let any = self.chance.between(4, 255) as u8;
            let k = self.chance.pick(&[4, 255, any]);
            self.script.begin(k);
            if self.chance.one_in(2) {
                self.judge();
            }
        }
        let k = self.chance.below(4) as u8;
        self.script.begin(k);
    }

    /// The next octets of the stream.
    fn next(&mut self, octets: usize) -> Vec<u8> {
        while self.stream.len() < octets {
            self.stream.extend(raw::stream(&mut self.chance, 3000));
        }
        let behind = self.stream.split_off(octets);
        std::mem::replace(&mut self.stream, behind)
    }

    /// How many octets the next portion has: mostly few, at times none, or more than a frame.
    fn size(&mut self) -> usize {
        let (from, to) = self.chance.weighted(&[
            (3, (0, 0)),
            (10, (1, 5)),
            (10, (6, 120)),
            (8, (121, 700)),
            (6, (1019, 1030)),
            (3, (1031, 2600)),
        ]);
        let most = self.chance.between(from, to) as usize;
        match self.chance.one_in(400) {
            true => 8192,
            false => most,
        }
    }

    /// The next portion; its rest is handed in again, mostly.
    fn portion(&mut self) {
        let size = self.size();
        let mut rest = self.next(size);
        while let Ok(Hunted { taken, found: true }) = self.script.hunt(&rest) {
            rest.drain(..taken);
            if self.chance.one_in(40) {
                // a caller that lets most of the rest go
                rest.truncate(self.chance.below(9) as usize);
            }
            if rest.is_empty() && self.chance.one_in(2) {
                return;
            }
        }
        if self.chance.one_in(8) {
            self.script.show();
        }
    }

    /// A refused hunt: the portion is still to come.
    fn wrong_buffer(&mut self) {
        let any = self.chance.below(2049) as u16;
        let lent = self.chance.pick(&[0, 1, 4, 1023, 1025, 2047, 2048, any]);
        let size = self.size();
        let portion = self.next(size);
        let answer = self.script.hunt_into(lent, &portion);
        if answer.is_err() {
            self.stream.splice(..0, portion);
        }
    }

    /// A hunt that changes nothing.
    fn judge(&mut self) {
        let _ = self.script.hunt(&[]);
    }

    /// A field of the hunter changed once or more, judged, then put back, mostly.
    fn poke(&mut self) {
        let field = self
            .chance
            .pick(&[Field::Begun, Field::K, Field::Waiting, Field::Octet]);
        let index = self.index();
        let old = value_of(&self.script.hunter, field, index);
        let mut numbers = edges(field).to_vec();
        numbers.extend([1, 2, 4, 8].map(|step| old.wrapping_add(step)));
        numbers.extend([1, 4].map(|step| old.wrapping_sub(step)));
        numbers.extend([self.chance.below(1030), self.chance.number()]);
        for _ in 0..self.chance.between(1, 3) {
            let number = self.chance.pick(&numbers);
            self.script.poke(field, index, number);
            self.judge();
        }
        if self.chance.one_in(4) {
            self.portion();
        }
        if !self.chance.one_in(10) {
            self.script.poke(field, index, old);
        }
    }

    /// An octet of the marker, the first ones behind what waits, the last one, or any.
    fn index(&mut self) -> u16 {
        let waiting = self.script.hunter.waiting;
        let any = self.chance.below(1026) as u16;
        let (first, wide) = (self.chance.below(4) as u16, self.chance.number() as u16);
        let last = waiting.wrapping_sub(1);
        let behind = waiting.wrapping_add(1);
        self.chance.pick(&[
            first, first, last, waiting, waiting, behind, 1023, any, wide,
        ])
    }

    /// A new hunter that waits, by pokes: with a marker of some wrong bits, and zeros behind it.
    fn waiting(&mut self) {
        self.begin();
        let marker = raw::some_marker(&mut self.chance);
        self.script.wait_with(&marker);
        let any = self.chance.between(4, 1023);
        let waiting = self.chance.pick(&[3, 4, 5, 1022, 1023, 1024, any]);
        self.script.poke(Field::Waiting, 0, waiting);
        self.judge();
    }

    /// What stands behind the last `H`: nothing, some octets, or a command that ends the run and
    /// one that is then not carried out.
    fn end(&mut self) {
        match self.chance.below(7) {
            0 => {
                let number = self.chance.pick(&[1, 3, 15]);
                self.script.octets.extend(self.chance.octets(number));
            }
            1 => self.script.command(b'n', 0, 1024, 0, 0),
            2 => self.script.command(b'N', 0, 2049, 0, 0),
            3 => self.script.command(b'N', 0, 1024, 8193, 0),
            4 => {
                let portion = self.next(100);
                let _ = self.script.hunt(&portion);
                self.script.octets.truncate(self.script.octets.len() - 30);
            }
            _ => return,
        }
        if self.chance.one_in(2) {
            self.script.show();
        }
    }
}

/// Numbers on both sides of the lines that the page draws for a field.
fn edges(field: Field) -> &'static [u64] {
    match field {
        Field::Begun => &[0, 0, 1, 256],
        Field::K => &[0, 1, 2, 3, 4, 255, 256],
        Field::Waiting => &[0, 1, 3, 4, 5, 1023, 1024, 65_535, 65_536],
        Field::Octet => &[0, 1, 0x1a, 0xcf, 0xfc, 0x1d, 255, 256],
    }
}

/// What stands in a field of the hunter, 0 past its octets.
fn value_of(hunter: &Hunter, field: Field, index: u16) -> u64 {
    match field {
        Field::Begun => u64::from(hunter.begun),
        Field::K => u64::from(hunter.k),
        Field::Waiting => u64::from(hunter.waiting),
        Field::Octet => hunter
            .octets
            .get(usize::from(index))
            .map_or(0, |&octet| u64::from(octet)),
    }
}
