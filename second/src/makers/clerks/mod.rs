//! The named cases of the clerk script: each shows one thing, and lends and writes what it needs at
//! its start, so that any of them can stand behind one another.

mod answers;
mod commands;
mod ends;
mod entering;
mod order;
mod questions;
mod room;
mod stored;

use std::io::Write;

use crate::makers::clerk_script::ClerkScript;
use crate::makers::make_catalogue::{facts, picture, plain};
use crate::makers::make_header;
use crate::model::catalogue::File;

/// A case: its name, what it shows, and what makes its script.
pub struct Case {
    pub name: &'static str,
    pub shows: &'static str,
    pub make: fn(&mut ClerkScript),
}

impl Case {
    pub fn script(&self) -> Vec<u8> {
        let mut script = ClerkScript::new();
        (self.make)(&mut script);
        script.octets
    }

    /// Those that end the run stand behind all others.
    fn ends_the_run(&self) -> bool {
        self.name.starts_with(ends::PREFIX)
    }
}

/// All cases in the order of their names, those that end the run last.
pub fn all() -> Vec<Case> {
    let mut cases: Vec<Case> = [
        answers::CASES,
        commands::CASES,
        ends::CASES,
        entering::CASES,
        order::CASES,
        questions::CASES,
        room::CASES,
        stored::CASES,
    ]
    .into_iter()
    .flatten()
    .map(|&(name, shows, make)| Case { name, shows, make })
    .collect();
    cases.sort_by_key(|case| (case.ends_the_run(), case.name));
    cases
}

/// Name, what it shows, and what makes it.
type Row = (&'static str, &'static str, fn(&mut ClerkScript));

pub fn write_names(out: &mut dyn Write) {
    for case in all() {
        let _ = writeln!(out, "{}", case.name);
    }
}

/// The page that says what each case shows.
pub fn write_page(out: &mut dyn Write) {
    let _ = out.write_all(PAGE.as_bytes());
    for case in all() {
        let _ = writeln!(out, "| `{}` | {} |", case.name, case.shows);
    }
}

const PAGE: &str = "# The clerks

Scripts for `clerk` (docs/CATALOGUE.md), each named for what it shows, and what must come out of it. `NAME.script` is what
`second clerk-case NAME` prints, `NAME.expected` what `second clerk` makes of it; `tests/make-stored` writes both anew, and this page too. Each
case but the first lends the buffer and puts into it what it needs at its start, so that they can stand behind one another in any order; those
that end the run come last. Octets behind a catalogue stay in the buffer from case to case, so that `H` prints other checks there than alone.
What stands in quotation marks is docs/CATALOGUE.md.

| case | shows |
|---|---|
";

/// The script of the case of this name.
pub fn write_case(name: &str, out: &mut dyn Write) -> bool {
    let Some(case) = all().into_iter().find(|case| case.name == name) else {
        return false;
    };
    let _ = out.write_all(&case.script());
    true
}

/// Four files, two of them with images, on three channels.
fn four() -> Vec<File> {
    vec![
        picture(facts(5, 160, 12, 65_440), 2200, 220, (3, 10)),
        plain(facts(1, 32, 255, 12), 2),
        picture(facts(5, 161, 13, 0x0102_0304), 300, 5, (0, 0)),
        plain(facts(40, 2015, 65_535, u64::MAX), 255),
    ]
}

/// A text on a channel that has files in `four`.
fn text() -> File {
    plain(facts(1, 33, 256, 2000), 2)
}

/// A file of the least header: 16 octets, and no data.
fn least() -> Vec<u8> {
    make_header::file(2, &[], &[])
}

/// What is handed in and all octets of the buffer, shown before and behind some commands.
fn between_shows(script: &mut ClerkScript, commands: impl Fn(&mut ClerkScript)) {
    script.show();
    commands(script);
    script.show();
}
