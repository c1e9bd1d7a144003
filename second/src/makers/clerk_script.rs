//! Makes clerk scripts.

use crate::makers::make_catalogue;
use crate::model::catalogue::{self, File};
use crate::model::clerk::BUFFER_SIZE;
use crate::model::station::Facts;

/// A script while it is made.
pub struct ClerkScript {
    pub octets: Vec<u8>,
}

impl ClerkScript {
    pub fn new() -> ClerkScript {
        ClerkScript { octets: Vec::new() }
    }

    /// "letter (1), a (1), b (2), c (4), d (8)"
    pub fn command(&mut self, letter: u8, a: u8, b: u16, c: u32, d: u64) {
        self.octets.extend([letter, a]);
        self.octets.extend(b.to_be_bytes());
        self.octets.extend(c.to_be_bytes());
        self.octets.extend(d.to_be_bytes());
    }

    /// So many octets of the buffer are lent, and the catalogue has so many.
    pub fn lend(&mut self, lent: usize, octets: u64) {
        self.command(b'M', 0, 0, lent as u32, octets);
    }

    /// Octets put at the start of the buffer: the catalogue has so many.
    pub fn write(&mut self, octets: &[u8]) {
        self.command(b'W', 0, 0, octets.len() as u32, 0);
        self.octets.extend(octets);
    }

    /// All of the buffer is lent, and these octets are what is said to be a catalogue.
    pub fn holds(&mut self, octets: &[u8]) {
        self.lend(BUFFER_SIZE, 0);
        self.write(octets);
    }

    /// The same for the catalogue of a list.
    pub fn holds_list(&mut self, list: &[File]) {
        self.holds(&catalogue::written(list));
    }

    pub fn begin(&mut self) {
        self.command(b'B', 0, 0, 0, 0);
    }

    pub fn enter(&mut self, facts: &Facts, file: &[u8]) {
        let c = u32::from(facts.counter) << 16 | file.len() as u32;
        self.command(b'E', facts.channel.0, facts.application.0, c, facts.length);
        self.octets.extend(file);
    }

    /// Enters a file whose header says what the list says of it.
    pub fn enter_listed(&mut self, file: &File) {
        self.enter(&file.facts, &make_catalogue::lrit(file));
    }

    pub fn judge(&mut self) {
        self.command(b'J', 0, 0, 0, 0);
    }

    pub fn file(&mut self, n: u64) {
        self.command(b'F', 0, 0, 0, n);
    }

    pub fn image(&mut self, n: u64) {
        self.command(b'I', 0, 0, 0, n);
    }

    pub fn channel(&mut self, n: u64) {
        self.command(b'C', 0, 0, 0, n);
    }

    /// All three questions about entry n.
    pub fn ask(&mut self, n: u64) {
        self.file(n);
        self.image(n);
        self.channel(n);
    }

    pub fn poke(&mut self, place: u64, octet: u8) {
        self.command(b'P', 0, u16::from(octet), 0, place);
    }

    pub fn show(&mut self) {
        self.command(b'H', 0, 0, 0, 0);
    }
}

impl Default for ClerkScript {
    fn default() -> ClerkScript {
        ClerkScript::new()
    }
}
