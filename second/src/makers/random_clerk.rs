//! A random clerk script. A clerk is carried on beside it while it is made, so that most files are
//! entered in a catalogue that is good, the lent sizes are near the edge, and what was damaged is
//! repaired.

use std::io::Write;

use crate::makers::catalogues;
use crate::makers::chance::Chance;
use crate::makers::clerk_script::ClerkScript;
use crate::makers::make_header::{file, image, navigation, primary, record, segment, time};
use crate::model::catalogue;
use crate::model::clerk::{Clerk, BUFFER_SIZE, MOST_SCRIPT_OCTETS};
use crate::model::frame::Channel;
use crate::model::packet::Application;
use crate::model::station::Facts;

/// What the next command is about.
#[derive(Clone, Copy)]
enum Turn {
    Enter,
    BadFacts,
    BadHeader,
    AtTheEdge,
    Ask,
    Damage,
    Other,
    Number,
    Write,
    Begin,
    Poke,
    Show,
}

const TURNS: &[(u64, Turn)] = &[
    (300, Turn::Enter),
    (20, Turn::BadFacts),
    (24, Turn::BadHeader),
    (50, Turn::AtTheEdge),
    (60, Turn::Ask),
    (40, Turn::Damage),
    (16, Turn::Other),
    (14, Turn::Number),
    (10, Turn::Write),
    (3, Turn::Begin),
    (8, Turn::Poke),
    (30, Turn::Show),
];

/// Turns after which what is no catalogue, or a full one, is written anew.
const PATIENCE: u32 = 3;
/// Octets left for the end of the script, below what is read of it.
const END_ROOM: usize = 80_000;
/// Catalogues of about 1,024 files in a script: they are long.
const MOST_FULL_ONES: u32 = 3;

/// Prints a script of so many commands, or a few more; fewer where it would grow too long.
pub fn run(seed: u64, commands: u64, out: &mut dyn Write) {
    let mut maker = Maker::new(seed);
    maker.first();
    let most = MOST_SCRIPT_OCTETS - END_ROOM;
    while maker.commands < commands && maker.script.octets.len() < most {
        maker.turn();
    }
    maker.script.show();
    maker.end();
    let _ = out.write_all(&maker.script.octets);
}

struct Maker {
    chance: Chance,
    script: ClerkScript,
    clerk: Clerk,
    /// Octets and commands of the script that were carried out.
    done: usize,
    commands: u64,
    /// The catalogue that stood in the buffer last.
    kept: Vec<u8>,
    spoilt: u32,
    full_ones: u32,
}

impl Maker {
    fn new(seed: u64) -> Maker {
        Maker {
            chance: Chance::new(seed),
            script: ClerkScript::new(),
            clerk: Clerk::default(),
            done: 0,
            commands: 0,
            kept: catalogue::written(&[]),
            spoilt: 0,
            full_ones: 0,
        }
    }

    /// Carries out what was added to the script.
    fn carry_out(&mut self) {
        self.commands += self.clerk.follow(&self.script.octets[self.done..]);
        self.done = self.script.octets.len();
    }

    /// Calls on what is lent at the start, which is nothing, and then all of the buffer.
    fn first(&mut self) {
        for _ in 0..self.chance.below(4) {
            self.call();
        }
        self.script.lend(BUFFER_SIZE, 0);
        self.script.begin();
        self.carry_out();
    }

    fn turn(&mut self) {
        let turn = match self.spoilt {
            PATIENCE.. => Turn::Write,
            _ => self.chance.weighted(TURNS),
        };
        match turn {
            Turn::Enter => self.enter(),
            Turn::BadFacts => self.bad_facts(),
            Turn::BadHeader => self.bad_header(),
            Turn::AtTheEdge => self.at_the_edge(),
            Turn::Ask => self.ask(),
            Turn::Damage => self.damage(),
            Turn::Other => self.other(),
            Turn::Number => self.number(),
            Turn::Write => self.write(),
            Turn::Begin => self.begin(),
            Turn::Poke => self.poke(),
            Turn::Show => self.script.show(),
        }
        self.carry_out();
        self.look();
        if self.chance.one_in(9) {
            self.script.show();
        }
    }

    /// Keeps the catalogue, and counts the turns for which no file could be entered.
    fn look(&mut self) {
        let stored = self.clerk.catalogue();
        let files = catalogue::listed(stored).map(|list| list.len());
        if files.is_some() && self.clerk.lent == BUFFER_SIZE {
            self.kept = stored.to_vec();
        }
        let takes_more = files.is_some_and(|files| files < catalogue::MOST_FILES);
        self.spoilt = if takes_more { 0 } else { self.spoilt + 1 };
    }

    /// A good file with good facts, whatever stands in the buffer.
    fn enter(&mut self) {
        let facts = catalogues::some_facts(&mut self.chance);
        let file = some_lrit(&mut self.chance);
        self.script.enter(&facts, &file);
        if self.chance.one_in(6) {
            self.script.judge();
        }
    }

    fn bad_facts(&mut self) {
        let facts = some_bad_facts(&mut self.chance);
        let file = match self.chance.one_in(6) {
            true => some_bad_lrit(&mut self.chance),
            false => some_lrit(&mut self.chance),
        };
        self.script.enter(&facts, &file);
    }

    fn bad_header(&mut self) {
        let facts = catalogues::some_facts(&mut self.chance);
        let file = some_bad_lrit(&mut self.chance);
        self.script.enter(&facts, &file);
    }

    /// Lends a few octets more than the catalogue has, enters a file or two, and lends all again.
    fn at_the_edge(&mut self) {
        let octets = self.clerk.octets.min(BUFFER_SIZE as u64);
        let steps = [0, 13, 14, 15, 16, 17, 18, 21, 22, 23, 24, 25, 26, 36, 44];
        let more = match self.chance.one_in(8) {
            true => self.chance.below(60) as usize,
            false => self.chance.pick(&steps),
        };
        let lent = match self.chance.one_in(10) {
            true => octets.saturating_sub(self.chance.between(1, 9)) as usize,
            false => octets as usize + more,
        };
        self.script.lend(lent, octets);
        for _ in 0..self.chance.between(1, 3) {
            self.call();
        }
        self.carry_out();
        if self.chance.one_in(2) {
            self.script.show();
        }
        self.script.lend(BUFFER_SIZE, self.clerk.octets);
    }

    /// A call of any kind, an enter more often than not.
    fn call(&mut self) {
        match self.chance.below(12) {
            0 => self.script.judge(),
            1 => self.ask(),
            2 => self.bad_facts(),
            3 => self.bad_header(),
            _ => self.enter(),
        }
    }

    /// Questions about entries that are there, the last ones, and those past them.
    fn ask(&mut self) {
        let numbers = catalogue::read(self.clerk.catalogue()).ok();
        let (files, images, channels) = numbers.map_or((4, 2, 2), |numbers| {
            (numbers.files, numbers.images, numbers.channels)
        });
        for _ in 0..self.chance.between(1, 4) {
            let number = self.chance.below(4);
            let entries = [files, images, channels, 0][number as usize] as u64;
            let n = self.entry(entries);
            match number {
                0 => self.script.file(n),
                1 => self.script.image(n),
                2 => self.script.channel(n),
                _ => self.script.judge(),
            }
        }
    }

    fn entry(&mut self, entries: u64) -> u64 {
        let chance = &mut self.chance;
        let any = chance.below(entries);
        let wide = chance.pick(&[1 << 16, 1 << 32, 1 << 63]) + any;
        let last = entries.saturating_sub(1);
        chance.pick(&[
            any,
            any,
            any,
            0,
            last,
            last,
            entries,
            entries + 1,
            wide,
            u64::MAX,
        ])
    }

    /// An octet of the catalogue or two changed, judged, and put back, mostly.
    fn damage(&mut self) {
        let octets = self.clerk.catalogue().len() as u64;
        let ends = [0, 1, octets.saturating_sub(1), octets.saturating_sub(3)];
        for _ in 0..self.chance.between(1, 3) {
            let any = self.chance.below(octets.max(1));
            let some = self.chance.pick(&ends);
            let place = self.chance.pick(&[any, any, any, some]);
            let old = self.clerk.buffer[place as usize];
            self.poke_near(place, old);
            self.carry_out();
            self.script.judge();
            if self.chance.one_in(5) {
                self.call();
            }
            self.carry_out();
            if !self.chance.one_in(12) {
                self.script.poke(place, old);
                self.carry_out();
            }
        }
    }

    fn poke_near(&mut self, place: u64, old: u8) {
        let (more, less) = (old.wrapping_add(1), old.wrapping_sub(1));
        let any = self.chance.number() as u8;
        let bit = old ^ 1 << self.chance.below(8);
        let octet = self.chance.pick(&[more, less, any, bit, bit, 0, 255]);
        self.script.poke(place, octet);
    }

    /// What is hardly a catalogue, judged and asked.
    fn other(&mut self) {
        let Some(list) = catalogue::listed(&self.kept) else {
            return;
        };
        if self.kept.len() > 3000 {
            return self.damage();
        }
        let octets = catalogues::damaged(&mut self.chance, &list);
        self.script.write(&octets[..octets.len().min(BUFFER_SIZE)]);
        self.script.judge();
        if self.chance.one_in(3) {
            self.call();
        }
        if !self.chance.one_in(4) {
            self.script.write(&self.kept);
        }
    }

    /// Another number of octets said to be there, or another lent size, for a call or two.
    fn number(&mut self) {
        let (lent, octets) = (self.clerk.lent, self.clerk.octets);
        let chance = &mut self.chance;
        let any = chance.number();
        let near = [octets.wrapping_add(1), octets.wrapping_sub(1), octets];
        let wide = [0, 6, 32_768, 32_769, u64::MAX, any];
        let number = match chance.one_in(2) {
            true => chance.pick(&near),
            false => chance.pick(&wide),
        };
        let some = chance.below(100) as usize;
        let lend = chance.pick(&[lent, lent, lent, some, octets as usize & 0xffff, 40_000]);
        self.script.lend(lend, number);
        for _ in 0..self.chance.between(1, 2) {
            self.call();
        }
        if self.chance.one_in(3) {
            self.script.show();
        }
        self.carry_out();
        self.script.lend(BUFFER_SIZE, octets);
    }

    /// Repairs the buffer: the catalogue that stood there last, or another.
    fn write(&mut self) {
        let short = self.kept.len() < 3000;
        let octets = match self.chance.below(5) {
            0 if self.full_ones < MOST_FULL_ONES => {
                self.full_ones += 1;
                catalogue::written(&catalogues::full_list(&mut self.chance))
            }
            1..=2 if short => self.kept.clone(),
            _ => {
                let list: Vec<_> = (0..self.chance.below(30))
                    .map(|_| catalogues::some_file(&mut self.chance))
                    .collect();
                catalogue::written(&list)
            }
        };
        self.script.lend(BUFFER_SIZE, 0);
        self.script.write(&octets);
        self.script.judge();
    }

    /// Begin, mostly with too few octets lent, so that what there is can stay.
    fn begin(&mut self) {
        if self.chance.one_in(4) {
            return self.script.begin();
        }
        let octets = self.clerk.octets;
        let lent = self.chance.below(6) as usize;
        self.script.lend(lent, octets);
        self.script.begin();
        self.script.lend(BUFFER_SIZE, octets);
    }

    /// An octet behind the catalogue, or past the buffer.
    fn poke(&mut self) {
        let octets = self.clerk.catalogue().len() as u64;
        let any = self.chance.number();
        let behind = octets + self.chance.below(60);
        let place = self.chance.pick(&[behind, behind, 32_767, 32_768, any]);
        let octet = self.chance.number() as u16;
        self.script.command(b'P', 0, octet, 0, place);
    }

    /// What stands behind the last `H`: nothing, some octets, or a command that ends the run and
    /// one that is then not carried out.
    fn end(&mut self) {
        match self.chance.below(8) {
            0 => {
                let number = self.chance.pick(&[1, 3, 15]);
                self.script.octets.extend(self.chance.octets(number));
            }
            1 => {
                let letter = self.chance.pick(b"SNQLRXjeh\0\xff");
                self.script.command(letter, 0, 0, 0, 0);
            }
            2 => self.script.command(b'W', 0, 0, 32_769, 0),
            3 => {
                self.enter();
                self.script.octets.pop();
                return;
            }
            4 => self.script.command(b'W', 0, 0, u32::MAX, 0),
            _ => return,
        }
        if self.chance.one_in(2) {
            self.script.show();
        }
    }
}

/// Facts of which one at least is out of bounds.
fn some_bad_facts(chance: &mut Chance) -> Facts {
    let mut facts = catalogues::some_facts(chance);
    let any = chance.between(63, 255) as u8;
    let wide = chance.between(2016, 65_535) as u16;
    match chance.below(3) {
        0 => facts.channel = Channel(chance.pick(&[63, 64, 255, any])),
        1 => facts.application = Application(chance.pick(&[2016, 2047, 65_535, wide])),
        _ => facts.length = 0,
    }
    facts
}

/// A record that may stand in a header more than once.
fn free_record(chance: &mut Chance) -> Vec<u8> {
    let kind = chance.pick(&[3, 4, 6, 7, 127, 129, 200, 255]);
    let octets = chance.below(12) as usize;
    record(kind, &chance.octets(octets))
}

/// Records of a header, each fixed type at most once, in any order.
fn some_records(chance: &mut Chance) -> Vec<Vec<u8>> {
    let mut records = Vec::new();
    let [columns, lines] = [(); 2].map(|()| catalogues::some_number(chance, 65_535) as u16);
    if !chance.one_in(3) {
        records.push(image(chance.number() as u8, columns, lines, 0));
    }
    if chance.one_in(2) {
        let [number, total] = [(); 2].map(|()| catalogues::some_number(chance, 255) as u8);
        records.push(segment(number, total, columns));
    }
    if chance.one_in(8) {
        records.push(navigation("GEOS(128.2)", [1, -2, 3, -4]));
    }
    if chance.one_in(5) {
        records.push(time(0x40, lines, 77));
    }
    for _ in 0..chance.below(3) {
        records.push(free_record(chance));
    }
    for place in 1..records.len() {
        let other = chance.below(place as u64 + 1) as usize;
        records.swap(place, other);
    }
    records
}

/// A file whose header is good.
fn some_lrit(chance: &mut Chance) -> Vec<u8> {
    let records = some_records(chance);
    let octets = chance.below(10) as usize;
    let data = chance.octets(octets);
    let file_type = catalogues::some_number(chance, 255) as u8;
    let whole = file(file_type, &records, &data);
    if data.is_empty() || !chance.one_in(4) {
        return whole;
    }
    // bits that fill up the last octet
    let header_length = (whole.len() - data.len()) as u32;
    let bits = data.len() as u64 * 8 - chance.below(8);
    [&primary(file_type, header_length, bits), &whole[16..]].concat()
}

/// A file whose header is refused, mostly: damaged, cut, too long, or with a record twice.
fn some_bad_lrit(chance: &mut Chance) -> Vec<u8> {
    let mut octets = some_lrit(chance);
    match chance.below(6) {
        0 => octets.truncate(chance.below(octets.len() as u64) as usize),
        1 => octets.push(chance.number() as u8),
        2 => {
            let start = octets.len().min(16);
            chance.damage(&mut octets[..start]);
        }
        3 => {
            let records = some_records(chance);
            octets = file(0, &[records.clone(), records].concat(), &[]);
        }
        4 => {
            let kind = chance.pick(&[0, 1, 2, 5, 128]);
            let length = chance.below(20) as usize;
            let odd = record(kind, &chance.octets(length));
            octets = file(1, &[some_records(chance), vec![odd]].concat(), &[]);
        }
        _ => chance.damage(&mut octets),
    }
    octets
}
