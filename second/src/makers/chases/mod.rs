//! The named cases of the chase script: each shows one thing and begins a hunter at its start, so
//! that any of them can stand behind one another.

mod answers;
mod commands;
mod ends;
mod frames;
mod markers;
mod portions;
mod soundness;

use std::io::Write;

use crate::makers::chance::Chance;
use crate::makers::chase_script::ChaseScript;
use crate::makers::raw;

/// A case: its name, what it shows, and what makes its script.
pub struct Case {
    pub name: &'static str,
    pub shows: &'static str,
    pub make: fn(&mut ChaseScript),
}

impl Case {
    pub fn script(&self) -> Vec<u8> {
        let mut script = ChaseScript::new();
        (self.make)(&mut script);
        script.octets
    }

    /// Those that end the run stand behind all others.
    fn ends_the_run(&self) -> bool {
        self.name.starts_with(ends::PREFIX)
    }
}

/// All cases in the order of their names, those that end the run last.
pub fn all() -> Vec<Case> {
    let mut cases: Vec<Case> = [
        answers::CASES,
        commands::CASES,
        ends::CASES,
        frames::CASES,
        markers::CASES,
        portions::CASES,
        soundness::CASES,
    ]
    .into_iter()
    .flatten()
    .map(|&(name, shows, make)| Case { name, shows, make })
    .collect();
    cases.sort_by_key(|case| (case.ends_the_run(), case.name));
    cases
}

/// Name, what it shows, and what makes it.
type Row = (&'static str, &'static str, fn(&mut ChaseScript));

pub fn write_names(out: &mut dyn Write) {
    for case in all() {
        let _ = writeln!(out, "{}", case.name);
    }
}

/// The page that says what each case shows.
pub fn write_page(out: &mut dyn Write) {
    let _ = out.write_all(PAGE.as_bytes());
    for case in all() {
        let _ = writeln!(out, "| `{}` | {} |", case.name, case.shows);
    }
}

const PAGE: &str = "# The chases

Scripts for `chase` (docs/STREAM.md), each small and named for what it shows, and what must come out of it. `NAME.script` is what
`second chase-case NAME` prints, `NAME.expected` what `second chase` makes of it; `tests/make-stored` writes both anew, and this page too. Each
case but the first begins a hunter at its start, so that they can stand behind one another in any order; those that end the run come last. The
buffer is never cleared, so that `N` prints other checks there than alone.
What stands in quotation marks is docs/STREAM.md.

| case | shows |
|---|---|
";

/// The script of the case of this name.
pub fn write_case(name: &str, out: &mut dyn Write) -> bool {
    let Some(case) = all().into_iter().find(|case| case.name == name) else {
        return false;
    };
    let _ = out.write_all(&case.script());
    true
}

/// So many octets with no marker among them.
fn noise(number: usize) -> Vec<u8> {
    raw::quiet(&mut Chance::new(14), number)
}

/// A frame whose marker has these bits wrong; frames of different numbers have different octets.
fn frame(number: u64, wrong: &[usize]) -> Vec<u8> {
    raw::frame_behind(&raw::marker(wrong), &mut Chance::new(number))
}

/// A new hunter on some octets, shown: how many wait says what was passed over.
fn tried(script: &mut ChaseScript, k: u8, octets: &[u8]) {
    script.begin(k);
    script.feed(octets);
    script.show();
}
