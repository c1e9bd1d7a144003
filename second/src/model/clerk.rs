//! The clerk script (docs/CATALOGUE.md): every call of the catalogue, driven from a file.

use std::io::Write;

use crate::model::catalogue::{self, Numbers, Refusal};
use crate::model::crc;
use crate::model::frame::Channel;
use crate::model::packet::Application;
use crate::model::station::Facts;
use crate::model::trial::{Command, COMMAND_SIZE};

/// "It owns a buffer of 32,768 octets"
pub const BUFFER_SIZE: usize = 32_768;
/// "A script has at most 524,288 octets: only these are read, and what is behind them counts
/// nowhere."
pub const MOST_SCRIPT_OCTETS: usize = 524_288;
/// "c up to 32,768"
const MOST_WRITTEN_OCTETS: usize = 32_768;

/// The octets of payload, none if the letter is not in the table or a limit is exceeded.
fn payload(command: &Command) -> Option<usize> {
    let written = command.c as usize;
    match command.letter {
        b'W' => (written <= MOST_WRITTEN_OCTETS).then_some(written),
        b'E' => Some(usize::from(command.c as u16)),
        b'M' | b'B' | b'J' | b'F' | b'I' | b'C' | b'P' | b'H' => Some(0),
        _ => None,
    }
}

/// The next command, its payload and what comes behind; none where the run ends.
fn next(script: &[u8]) -> Option<(Command, &[u8], &[u8])> {
    let (octets, behind) = script.split_at_checked(COMMAND_SIZE)?;
    let command = Command::of(octets);
    let (payload, behind) = behind.split_at_checked(payload(&command)?)?;
    Some((command, payload, behind))
}

/// Carries out a script. "The last line is `END n m`".
pub fn run(script: &[u8], out: &mut dyn Write) {
    let mut left = script.get(..MOST_SCRIPT_OCTETS).unwrap_or(script);
    let mut clerk = Clerk::default();
    let mut carried_out = 0u64;
    while let Some((command, payload, behind)) = next(left) {
        clerk.carry_out(&command, payload, out);
        carried_out += 1;
        left = behind;
    }
    let _ = writeln!(out, "END {carried_out} {}", left.len());
}

/// "a buffer of 32,768 octets, all zero at the start, and two numbers, 0 at the start: how many
/// octets of the buffer, from its first on, are lent to a call, and how many octets the catalogue
/// has."
pub struct Clerk {
    pub buffer: Vec<u8>,
    pub lent: usize,
    pub octets: u64,
}

impl Default for Clerk {
    fn default() -> Clerk {
        Clerk {
            buffer: vec![0; BUFFER_SIZE],
            lent: 0,
            octets: 0,
        }
    }
}

impl Clerk {
    /// Carries out commands up to what ends the run, but for `H`, which changes nothing, and
    /// prints nothing; gives their number.
    pub fn follow(&mut self, script: &[u8]) -> u64 {
        let mut left = script;
        let mut carried_out = 0;
        while let Some((command, payload, behind)) = next(left) {
            if command.letter != b'H' {
                self.carry_out(&command, payload, &mut std::io::sink());
            }
            carried_out += 1;
            left = behind;
        }
        carried_out
    }

    fn carry_out(&mut self, command: &Command, payload: &[u8], out: &mut dyn Write) {
        match command.letter {
            b'M' => self.lend(command),
            b'W' => self.write(payload),
            b'B' => self.begin(out),
            b'E' => self.enter(command, payload, out),
            b'J' => self.read(out),
            b'F' => self.file(command.d, out),
            b'I' => self.image(command.d, out),
            b'C' => self.channel(command.d, out),
            b'P' => self.poke(command),
            _ => self.show(out),
        }
    }

    /// "c octets are lent (32,768 if c is more), and the catalogue has d octets"
    fn lend(&mut self, command: &Command) {
        self.lent = (command.c as usize).min(BUFFER_SIZE);
        self.octets = command.d;
    }

    /// "they are put at the start of the buffer, and the catalogue has c octets; how many are lent
    /// stays"
    fn write(&mut self, payload: &[u8]) {
        self.buffer[..payload.len()].copy_from_slice(payload);
        self.octets = payload.len() as u64;
    }

    /// "octet d of the buffer, from 0, becomes b modulo 256; past its end nothing changes"
    fn poke(&mut self, command: &Command) {
        let place = usize::try_from(command.d).unwrap_or(usize::MAX);
        if let Some(octet) = self.buffer.get_mut(place) {
            *octet = command.b as u8;
        }
    }

    fn begin(&mut self, out: &mut dyn Write) {
        let answer = catalogue::begin(&mut self.buffer[..self.lent]);
        self.after(b'B', &answer, out);
    }

    /// "`E` is given the number of octets of the catalogue as it is"
    fn enter(&mut self, command: &Command, file: &[u8], out: &mut dyn Write) {
        let facts = Facts {
            channel: Channel(command.a),
            application: Application(command.b),
            counter: (command.c >> 16) as u16,
            length: command.d,
        };
        let lent = &mut self.buffer[..self.lent];
        let answer = catalogue::enter(lent, self.octets, &facts, file);
        self.after(b'E', &answer, out);
    }

    /// "and after 0 a space and the octets that the catalogue has now"
    fn after(&mut self, letter: u8, answer: &Result<usize, Refusal>, out: &mut dyn Write) {
        if let Ok(octets) = answer {
            self.octets = *octets as u64;
        }
        write_answer(letter, answer, out, |octets| format!(" {octets}"));
    }

    /// "the first so many of those lent, or all that are lent if it is said to have more"
    pub fn catalogue(&self) -> &[u8] {
        let lent = &self.buffer[..self.lent];
        let octets = usize::try_from(self.octets).unwrap_or(usize::MAX);
        &lent[..octets.min(lent.len())]
    }

    fn read(&self, out: &mut dyn Write) {
        let answer = catalogue::read(self.catalogue());
        write_answer(b'J', &answer, out, |numbers| {
            let Numbers {
                files,
                images,
                channels,
            } = numbers;
            format!(" {files} {images} {channels}")
        });
    }

    /// "` channel application counter L type`"
    fn file(&self, n: u64, out: &mut dyn Write) {
        let answer = catalogue::file(self.catalogue(), n);
        write_entry(b'F', &answer, out, |file| {
            let (facts, file_type) = (&file.facts, file.file_type);
            let (channel, application) = (facts.channel.0, facts.application.0);
            let (counter, length) = (facts.counter, facts.length);
            format!(" {channel} {application} {counter} {length} {file_type}")
        });
    }

    /// "` index columns lines number total`"
    fn image(&self, n: u64, out: &mut dyn Write) {
        let answer = catalogue::image(self.catalogue(), n);
        write_entry(b'I', &answer, out, |(index, image)| {
            let (columns, lines) = (image.columns, image.lines);
            format!(
                " {index} {columns} {lines} {} {}",
                image.number, image.total
            )
        });
    }

    /// "` channel files`"
    fn channel(&self, n: u64, out: &mut dyn Write) {
        let answer = catalogue::channel(self.catalogue(), n);
        write_entry(b'C', &answer, out, |(channel, files)| {
            format!(" {} {files}", channel.0)
        });
    }

    /// `H lent octets check`
    fn show(&self, out: &mut dyn Write) {
        let check = crc::crc(&self.buffer);
        let _ = writeln!(out, "H {} {} {check}", self.lent, self.octets);
    }
}

/// A letter, the number of the answer, and after 0 what comes with it.
fn write_answer<T>(
    letter: u8,
    answer: &Result<T, Refusal>,
    out: &mut dyn Write,
    words: impl Fn(&T) -> String,
) {
    let number = catalogue::number(answer);
    let words = answer.as_ref().map_or(String::new(), words);
    let _ = writeln!(out, "{} {number}{words}", char::from(letter));
}

/// The same for an entry of a section, "if there is one".
fn write_entry<T>(
    letter: u8,
    answer: &Result<Option<T>, Refusal>,
    out: &mut dyn Write,
    words: impl Fn(&T) -> String,
) {
    write_answer(letter, answer, out, |entry| {
        entry.as_ref().map_or(String::new(), &words)
    });
}
