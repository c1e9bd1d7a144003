//! What the generators make for `clerk` and `printout`.

use std::collections::BTreeSet;

use second::makers::chance::Chance;
use second::makers::{catalogues, clerks, loads, random_clerk};
use second::model::{catalogue, clerk, records};

fn clerked(script: &[u8]) -> String {
    let mut out = Vec::new();
    clerk::run(script, &mut out);
    String::from_utf8(out).expect("ASCII")
}

fn last_line(out: &str) -> &str {
    out.lines().last().expect("a last line")
}

/// A letter and the number behind it, but for `H` and the last line.
fn kinds(out: &str) -> impl Iterator<Item = String> + '_ {
    out.lines().filter_map(|line| {
        let mut words = line.split(' ');
        match (words.next()?, words.next()?) {
            ("H" | "END", _) => None,
            (letter, number) => Some(format!("{letter} {number}")),
        }
    })
}

/// All answers of the page.
fn answers() -> BTreeSet<String> {
    let numbers = [
        ("B", vec![0, 34]),
        ("E", vec![0, 20, 21, 22, 23, 24, 25, 26, 30, 31, 34]),
        ("J", vec![0, 31]),
        ("F", vec![0, 31]),
        ("I", vec![0, 31]),
        ("C", vec![0, 31]),
    ];
    let lines = |(letter, numbers): (&str, Vec<u16>)| -> Vec<String> {
        numbers.iter().map(|n| format!("{letter} {n}")).collect()
    };
    numbers.into_iter().flat_map(lines).collect()
}

#[test]
fn cases_have_names_of_their_own_and_lend_at_their_start() {
    let cases = clerks::all();
    let names: BTreeSet<&str> = cases.iter().map(|case| case.name).collect();
    assert_eq!(names.len(), cases.len());
    assert_eq!(cases[0].name, "all-zero-at-the-start");
    for case in &cases[1..] {
        let script = case.script();
        let lends = script.is_empty() || script.starts_with(b"M");
        assert!(lends, "{}", case.name);
    }
}

#[test]
fn cases_run_to_their_end_but_for_those_that_end_the_run() {
    let mut all = Vec::new();
    for case in clerks::all() {
        let script = case.script();
        let ends = !last_line(&clerked(&script)).ends_with(" 0");
        let named = case.name.starts_with("end-") && case.name != "end-nothing";
        assert_eq!(ends, named, "{}", case.name);
        if !ends {
            all.extend(script);
        }
    }
    assert!(last_line(&clerked(&all)).ends_with(" 0"));
    assert!(all.len() < 400_000);
}

#[test]
fn cases_meet_every_answer_and_no_other() {
    let outs = clerks::all()
        .into_iter()
        .map(|case| clerked(&case.script()));
    let met: BTreeSet<String> = outs
        .flat_map(|out| kinds(&out).collect::<Vec<_>>())
        .collect();
    assert_eq!(met, answers());
}

/// Lines of the cases joined, but for the checks of `H`, are those of each alone.
#[test]
fn cases_print_the_same_behind_one_another() {
    let without_checks = |out: &str| -> Vec<String> {
        let lines = out.lines().filter(|line| !line.starts_with("END"));
        let line = |line: &str| match line.strip_prefix("H ") {
            Some(shown) => shown
                .rsplit_once(' ')
                .map_or(shown, |(front, _)| front)
                .into(),
            None => line.to_string(),
        };
        lines.map(line).collect()
    };
    let mut all = Vec::new();
    let mut alone = Vec::new();
    for case in clerks::all() {
        if !case.name.starts_with("end-") {
            alone.extend(without_checks(&clerked(&case.script())));
            all.extend(case.script());
        }
    }
    assert_eq!(without_checks(&clerked(&all)), alone);
}

fn made(seed: u64, commands: u64) -> Vec<u8> {
    let mut out = Vec::new();
    random_clerk::run(seed, commands, &mut out);
    out
}

#[test]
fn random_scripts_meet_every_answer_and_mostly_enter() {
    let mut met = Vec::new();
    let mut left_over = BTreeSet::new();
    for seed in 1..=16 {
        let script = made(seed, 400);
        assert_eq!(script, made(seed, 400));
        assert!(script.len() < 524_288);
        let out = clerked(&script);
        met.extend(kinds(&out));
        left_over.extend(last_line(&out).split(' ').nth(2).map(str::to_string));
        assert!(out.lines().filter(|line| line.starts_with('H')).count() > 20);
    }
    assert_eq!(met.iter().cloned().collect::<BTreeSet<_>>(), answers());
    let entered = met.iter().filter(|kind| *kind == "E 0").count();
    let all = met.iter().filter(|kind| kind.starts_with('E')).count();
    assert!(2 * entered > all, "{entered} of {all}");
    for (line, least) in [("E 30", 10), ("E 34", 100), ("E 31", 100), ("J 31", 100)] {
        let times = met.iter().filter(|kind| *kind == line).count();
        assert!(times >= least, "{line}: {times}");
    }
    assert!(left_over.len() > 3, "{left_over:?}");
}

/// The files that a script hands in to be entered.
fn handed_in(script: &[u8]) -> Vec<&[u8]> {
    let mut files = Vec::new();
    let mut left = script;
    while let [letter, _, _, _, c0, c1, c2, c3, ..] = *left {
        let size = match letter {
            b'W' => u32::from_be_bytes([c0, c1, c2, c3]) as usize,
            b'E' => usize::from(u16::from_be_bytes([c2, c3])),
            _ => 0,
        };
        let Some(payload) = left.get(16..16 + size) else {
            break;
        };
        if letter == b'E' {
            files.push(payload);
        }
        left = &left[16 + size..];
    }
    files
}

#[test]
fn random_scripts_have_headers_with_and_without_image_and_segment() {
    let mut kinds = [0; 4];
    for seed in 1..=16 {
        let script = made(seed, 400);
        let headers = handed_in(&script).into_iter().map(records::header);
        for header in headers.flatten() {
            let (image, segment) = (header.image.is_some(), header.segment.is_some());
            kinds[2 * usize::from(image) + usize::from(segment)] += 1;
        }
    }
    let all = kinds.iter().sum::<usize>() as f64;
    let share = |of: usize| of as f64 / all;
    assert!((0.6..0.73).contains(&share(kinds[2] + kinds[3])));
    assert!((0.43..0.57).contains(&share(kinds[1] + kinds[3])));
    assert!(kinds.iter().all(|&of| share(of) > 0.1), "{kinds:?}");
}

#[test]
fn random_catalogues_are_good_but_for_about_one_in_four() {
    let mut good = 0;
    let mut files = BTreeSet::new();
    for seed in 0..400 {
        let (mut out, mut again) = (Vec::new(), Vec::new());
        catalogues::run(seed, &mut out);
        catalogues::run(seed, &mut again);
        assert!(out == again);
        if let Some(list) = catalogue::listed(&out) {
            good += 1;
            files.insert(list.len());
        }
    }
    assert!((280..350).contains(&good), "{good}");
    assert!(files.contains(&0) && files.contains(&1) && files.contains(&1024));
}

#[test]
fn the_sample_has_files_of_every_kind() {
    let list = catalogue::listed(&catalogues::sample()).expect("a catalogue");
    assert_eq!(list.len(), 10);
    let with = |number| {
        let images = list.iter().filter_map(|file| file.image);
        images.filter(|image| (image.number == 0) == number).count()
    };
    assert!(with(true) > 0 && with(false) > 0);
    assert!(list.iter().any(|file| file.image.is_none()));
    assert!(list.iter().any(|file| file.facts.length == u64::MAX));
}

fn loaded(name: &str, size: usize) -> Vec<u8> {
    let mut out = Vec::new();
    assert!(loads::run(name, size, &mut out), "{name}");
    out
}

#[test]
fn a_load_for_clerk_only_goes_on() {
    for name in ["enter", "enter-none", "judge"] {
        let (shorter, longer) = (loaded(name, 2), loaded(name, 5));
        assert!(longer.starts_with(&shorter), "{name}");
        assert!(last_line(&clerked(&longer)).ends_with(" 0"), "{name}");
    }
    let entered = "E 0 22723\n".repeat(5);
    assert_eq!(clerked(&loaded("enter", 5)), format!("{entered}END 15 0\n"));
    assert_eq!(clerked(&loaded("enter-none", 5)), "END 10 0\n");
    let judged = "J 0 1023 1023 63\n".repeat(5);
    assert_eq!(clerked(&loaded("judge", 5)), format!("{judged}END 7 0\n"));
}

#[test]
fn rubbish_as_scripts_ends() {
    let mut chance = Chance::new(12);
    for size in 0..300 {
        let rubbish = chance.octets(size * 7);
        assert!(last_line(&clerked(&rubbish)).starts_with("END "));
        assert!(catalogue::listed(&rubbish).is_none());
    }
    for seed in 1..=10 {
        let mut script = made(seed, 60);
        for _ in 0..10 {
            chance.damage(&mut script);
            assert!(last_line(&clerked(&script)).starts_with("END "));
        }
    }
}
