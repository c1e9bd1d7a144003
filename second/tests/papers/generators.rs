//! What the generators make: cases, random scripts and streams, the demo.

use std::collections::BTreeSet;

use second::makers::{cases, demo, loads, random, stream};
use second::model::{program, records, transport, trial};

use crate::memory::Station;

fn tried(script: &[u8]) -> String {
    let mut out = Vec::new();
    trial::run(script, &mut out);
    String::from_utf8(out).expect("ASCII")
}

fn last_line(out: &str) -> &str {
    out.lines().last().expect("a last line")
}

#[test]
fn cases_have_names_of_their_own_and_reset_what_they_need() {
    let cases = cases::all();
    let names: BTreeSet<&str> = cases.iter().map(|case| case.name).collect();
    assert_eq!(names.len(), cases.len());
    for case in &cases {
        let script = case.script();
        let resets = script.is_empty() || script.starts_with(b"M");
        assert!(resets, "{}", case.name);
    }
}

/// What was stored before the facts of a file could be asked for is printed as before.
#[test]
fn cases_of_facts_stand_behind_the_others_and_before_the_ends() {
    let names: Vec<&str> = cases::all().iter().map(|case| case.name).collect();
    let part = |name: &&str| match name {
        name if name.starts_with("end-") => 2,
        name if name.starts_with("facts-") => 1,
        _ => 0,
    };
    assert!(names.iter().map(part).is_sorted());
    assert!(names.iter().filter(|name| part(name) == 1).count() > 9);
}

#[test]
fn cases_run_to_their_end_but_for_those_that_end_the_run() {
    let mut all = Vec::new();
    for case in cases::all() {
        let out = tried(&case.script());
        let ends = !last_line(&out).ends_with(" 0");
        let named = case.name.starts_with("end-") && case.name != "end-nothing";
        assert_eq!(ends, named, "{}", case.name);
        if !ends {
            all.extend(case.script());
        }
    }
    assert!(last_line(&tried(&all)).ends_with(" 0"));
    assert!(all.len() < 460_000);
}

fn made(run: fn(u64, u64, &mut dyn std::io::Write), seed: u64, size: u64) -> Vec<u8> {
    let mut out = Vec::new();
    run(seed, size, &mut out);
    out
}

/// A letter and the number behind it, as `F 0` or `E 10`; the whole line where a file is let go.
fn kinds(out: &str) -> impl Iterator<Item = String> + '_ {
    out.lines().filter_map(|line| {
        let mut words = line.split(' ');
        match (words.next()?, words.next()?) {
            ("L", _) => Some(line.to_string()),
            (letter @ ("S" | "F" | "R" | "I" | "E"), number) => Some(format!("{letter} {number}")),
            _ => None,
        }
    })
}

/// All answers and events of 01 and 02, 3/14 and 5/14, as `kinds` gives them.
fn answers_and_events() -> BTreeSet<String> {
    let numbers = [
        ("S", vec![0, 1, 10]),
        ("F", (0..=9).collect()),
        ("R", vec![0, 1, 2, 11, 12, 14]),
        ("I", vec![0, 1, 2, 11, 12]),
        ("L", vec![2, 11]),
        ("E", (1..=13).collect()),
    ];
    let lines = |(letter, numbers): (&str, Vec<u16>)| -> Vec<String> {
        numbers.iter().map(|n| format!("{letter} {n}")).collect()
    };
    let reports = ["L 0 0", "L 0 1"].map(String::from);
    numbers.into_iter().flat_map(lines).chain(reports).collect()
}

#[test]
fn cases_meet_every_answer_and_event_and_no_other() {
    let outs = cases::all().into_iter().map(|case| tried(&case.script()));
    let met: BTreeSet<String> = outs
        .flat_map(|out| kinds(&out).collect::<Vec<_>>())
        .collect();
    assert_eq!(met, answers_and_events());
}

#[test]
fn random_scripts_meet_every_answer_and_event_and_no_other() {
    let mut met = BTreeSet::new();
    for seed in 1..=16 {
        let script = made(random::run, seed, 600);
        assert_eq!(script, made(random::run, seed, 600));
        met.extend(kinds(&tried(&script)));
    }
    assert_eq!(met, answers_and_events());
}

/// How often each line is met where a file is let go, in sound states and in poked ones.
#[test]
fn random_scripts_let_files_go_of_every_kind() {
    let outs = (1..=16).map(|seed| tried(&made(random::run, seed, 600)));
    let lines: Vec<String> = outs
        .flat_map(|out| kinds(&out).collect::<Vec<_>>())
        .collect();
    for (line, least) in [("L 0 1", 200), ("L 0 0", 20), ("L 2", 50), ("L 11", 100)] {
        let met = lines.iter().filter(|met| *met == line).count();
        assert!(met >= least, "{line}: {met}");
    }
}

/// How often each answer is met where the facts of a file are asked for.
#[test]
fn random_scripts_ask_for_facts_of_every_kind() {
    let outs = (1..=16).map(|seed| tried(&made(random::run, seed, 600)));
    let lines: Vec<String> = outs
        .flat_map(|out| kinds(&out).collect::<Vec<_>>())
        .collect();
    for (line, least) in [
        ("I 0", 100),
        ("I 1", 5),
        ("I 2", 20),
        ("I 11", 40),
        ("I 12", 4),
    ] {
        let met = lines.iter().filter(|met| *met == line).count();
        assert!(met >= least, "{line}: {met}");
    }
}

/// The letter where a script's run ends, none where it is carried out to its end or a command is
/// cut short.
fn letter_of_the_end(script: &[u8]) -> Option<u8> {
    let out = tried(script);
    let left: usize = last_line(&out).rsplit(' ').next()?.parse().ok()?;
    script[script.len() - left..]
        .first()
        .copied()
        .filter(|_| left >= 16)
}

#[test]
fn random_scripts_have_unknown_letters_at_their_end_alone() {
    let mut letters = BTreeSet::new();
    for seed in 1..=40 {
        let script = made(random::run, seed, 60);
        let out = tried(&script);
        let shown = out
            .lines()
            .rev()
            .skip(1)
            .find(|line| !line.starts_with(['T', 'K']));
        assert!(shown.is_some_and(|line| line.starts_with('H')), "{seed}");
        letters.extend(letter_of_the_end(&script));
    }
    assert!(letters.len() >= 3 && letters.contains(&b'D'), "{letters:?}");
    assert!(letters.iter().all(|letter| !b"MSFRLIPQH".contains(letter)));
}

/// Of some files a quarter to a third have a length that is no multiple of 8, or nearly so many,
/// of those in one packet and of those in several.
fn lengths_are_mixed(lengths: &[u64]) {
    for whole in [true, false] {
        let of_kind = lengths
            .iter()
            .filter(|&&length| (transport::need(length) == 1) == whole);
        let all = of_kind.clone().count();
        let filled_up = of_kind.filter(|&length| length % 8 != 0).count();
        let share = filled_up as f64 / all as f64;
        assert!(all >= 50, "{all}");
        assert!((0.2..0.38).contains(&share), "{filled_up} of {all}");
    }
}

#[test]
fn random_scripts_have_lengths_that_are_no_multiple_of_8() {
    let mut files = BTreeSet::new();
    for seed in 1..=16 {
        let out = tried(&made(random::run, seed, 600));
        let shown = out.lines().filter_map(|line| line.strip_prefix("T "));
        files.extend(shown.map(|line| {
            let words: Vec<u64> = line
                .split(' ')
                .map_while(|word| word.parse().ok())
                .collect();
            (seed, words[2], words[3])
        }));
    }
    let lengths: Vec<u64> = files.iter().map(|&(_, _, length)| length).collect();
    lengths_are_mixed(&lengths);
}

#[test]
fn random_streams_have_lengths_that_are_no_multiple_of_8() {
    let mut lengths = Vec::new();
    for seed in 1..=40 {
        let mut station = Station::new(&[0, 1, 2, 3], 64);
        for unit in made(stream::run, seed, 150).chunks_exact(1024) {
            for event in station.frame(unit).unwrap_or_default() {
                let slot = &station.state.slots[usize::from(event[2])];
                if event[0] == 10 && slot.is_held() {
                    lengths.push(slot.length);
                }
            }
        }
    }
    lengths_are_mixed(&lengths);
}

#[test]
fn random_streams_are_whole_frames_and_a_rest() {
    for seed in 1..=5 {
        let frames = made(stream::run, seed, 100);
        assert_eq!(frames.len() / 1024, 100);
        let mut out = Vec::new();
        program::run(&mut &frames[..], &mut out);
        let out = String::from_utf8(out).expect("ASCII");
        assert_eq!(last_line(&out), format!("END 100 {}", frames.len() % 1024));
    }
}

#[test]
fn the_demo_shows_what_its_page_says() {
    let mut out = Vec::new();
    program::run(&mut &demo::stream().concat()[..], &mut out);
    let out = String::from_utf8(out).expect("ASCII");
    let events: Vec<String> = kinds(&out).filter(|kind| kind.starts_with('E')).collect();
    let wanted = [4, 10, 10, 12, 11, 12, 10, 1, 6, 10, 12, 9];
    let wanted: Vec<String> = wanted.iter().map(|kind| format!("E {kind}")).collect();
    assert_eq!(events, wanted);
}

#[test]
fn the_files_of_the_demo_have_good_headers() {
    for (file, last) in [(demo::first_picture(), 128), (demo::bulletin(), 5)] {
        let records = records::records(&file).expect("a good header");
        assert_eq!(records.last().map(|record| record.kind), Some(last));
    }
}

fn loaded(name: &str, size: usize) -> Vec<u8> {
    let mut out = Vec::new();
    assert!(loads::run(name, size, &mut out), "{name}");
    out
}

#[test]
fn a_load_of_frames_only_goes_on_and_all_of_it_is_taken() {
    for name in ["long", "files", "fill", "small", "whole"] {
        let (shorter, longer) = (loaded(name, 5), loaded(name, 11));
        assert_eq!(shorter, longer[..5 * 1024], "{name}");
        let mut out = Vec::new();
        program::run(&mut &longer[..], &mut out);
        let out = String::from_utf8(out).expect("ASCII");
        let taken = out.lines().filter(|line| line.starts_with("F "));
        assert!(taken
            .clone()
            .all(|line| line.split(' ').nth(2) == Some("0")));
        assert_eq!((taken.count(), last_line(&out)), (11, "END 11 0"), "{name}");
    }
    assert!(!loads::run("other", 1, &mut Vec::new()));
}

#[test]
fn a_load_for_trial_has_the_frames_of_the_stream() {
    for name in ["files", "fill"] {
        let mut out = Vec::new();
        program::run(&mut &loaded(name, 11)[..], &mut out);
        let streamed = String::from_utf8(out).expect("ASCII");
        let tried = tried(&loaded(&format!("trial-{name}"), 11));
        let events = |text: &str| text.lines().filter(|line| line.starts_with('E')).count();
        assert_eq!(events(&tried), events(&streamed), "{name}");
        let taken = tried.lines().filter(|line| line.starts_with("F 0 "));
        assert_eq!(taken.count(), 11, "{name}");
    }
}

#[test]
fn a_load_of_files_let_go_lets_them_go() {
    for name in ["let-go", "let-go-64"] {
        assert!(tried(&loaded(name, 1)).contains("\nL 0 0\n"), "{name}");
    }
    let out = tried(&loaded("abandoned-64", 1));
    assert!(out.contains("\nF 0 32\n"));
    assert_eq!(kinds(&out).filter(|kind| kind == "E 6").count(), 32);
}

#[test]
fn a_load_of_refused_calls_is_judged_and_changes_nothing() {
    for (name, answer) in [("sound", "L 11"), ("sound-64", "L 11"), ("unsound", "L 2")] {
        let out = tried(&loaded(name, 3));
        assert_eq!(out.lines().filter(|&line| line == answer).count(), 3);
    }
}
