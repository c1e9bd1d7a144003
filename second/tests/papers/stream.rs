//! The raw stream: the hunter, the filter and the chase script, and what makes input for them.

use std::collections::BTreeSet;

use second::makers::chance::Chance;
use second::makers::{chases, loads, random_chase, raw};
use second::model::frame::MARKER;
use second::model::station::Refusal;
use second::model::stream::{self, is_marker, wrong_bits, Hunted, Hunter};
use second::model::whole::{whole, Whole};
use second::model::{chase, hunt};

/// Hands in portions, each rest again, and gives what came of them.
fn hunted(portions: &[&[u8]], k: u8) -> Whole {
    let (mut hunter, answer) = stream::begin(k);
    assert_eq!(answer, Ok(()));
    let mut frames: Vec<Vec<u8>> = Vec::new();
    for portion in portions {
        let mut rest = *portion;
        loop {
            let mut buffer = [0x55; 1024];
            let (next, answer) = stream::hunt(&hunter, rest, &mut buffer);
            let Hunted { taken, found } = answer.expect("a sound hunter");
            assert!(next.is_sound());
            hunter = next;
            rest = &rest[taken..];
            if !found {
                assert_eq!((rest.len(), buffer), (0, [0x55; 1024]));
                break;
            }
            assert_eq!(hunter.waiting, 0);
            frames.push(buffer.to_vec());
        }
    }
    let waiting = hunter.waiting_octets().to_vec();
    let came: usize = portions.iter().map(|portion| portion.len()).sum();
    let passed = came - 1024 * frames.len() - waiting.len();
    Whole {
        frames,
        passed,
        waiting,
    }
}

/// Two frames that are not quite in step, a false marker in the first, and a cut third.
fn some_stream() -> Vec<u8> {
    let mut chance = Chance::new(5);
    let mut first = raw::frame_behind(&raw::marker(&[0, 9]), &mut chance);
    first[700..704].copy_from_slice(&MARKER);
    first[1021..].copy_from_slice(&MARKER[..3]);
    let second = raw::frame_behind(&raw::marker(&[31]), &mut chance);
    let noise = raw::quiet(&mut chance, 7);
    [&MARKER[..3], &first, &noise, &second, &MARKER, &[1, 2]].concat()
}

#[test]
fn what_the_whole_stream_gives() {
    let stream = some_stream();
    let found = whole(&stream, 2);
    assert_eq!((found.frames.len(), found.passed), (2, 10));
    assert_eq!(found.waiting, [&MARKER[..], &[1, 2]].concat());
    assert_eq!(found.frames[0][..4], MARKER);
    assert_eq!(found.frames[0][4..], stream[7..1027]);
    let strict = whole(&stream, 0);
    assert_eq!((strict.frames.len(), strict.passed), (1, 703 + 331));
    assert_eq!(whole(&[], 0), Whole::default());
}

#[test]
fn every_cut_in_two_gives_what_the_whole_stream_gives() {
    let stream = some_stream();
    for k in 0..=3 {
        let expected = whole(&stream, k);
        for cut in 0..=stream.len() {
            let (first, second) = stream.split_at(cut);
            assert_eq!(hunted(&[first, &[], second], k), expected, "{k} {cut}");
        }
    }
}

#[test]
fn portions_of_every_size_give_what_the_whole_stream_gives() {
    let stream = some_stream();
    for k in [0, 3] {
        let expected = whole(&stream, k);
        for size in (1..40).chain(1000..1050) {
            let portions: Vec<&[u8]> = stream.chunks(size).collect();
            assert_eq!(hunted(&portions, k), expected, "{k} {size}");
        }
    }
}

/// The portions between the places at which the bits of a number say so.
fn divided(stream: &[u8], cuts: u32) -> Vec<&[u8]> {
    let mut portions = Vec::new();
    let mut from = 0;
    for place in (1..stream.len()).filter(|place| cuts >> (place - 1) & 1 == 1) {
        portions.push(&stream[from..place]);
        from = place;
    }
    portions.push(&stream[from..]);
    portions
}

#[test]
fn every_division_of_a_short_stream_leaves_the_same_waiting() {
    let streams: [&[u8]; 4] = [
        &[0x1a, 0xcf, 0xfc, 0x1d, 0xcf, 0xfc, 0x1d, 0, 0],
        &[0x1a, 0xcf, 0xfc, 0x1a, 0xcf, 0xfc, 0x1d, 0, 0],
        &[0x1a, 0x1a, 0xcf, 0x1a, 0xcf, 0xfc, 0x1d, 0x1a],
        &[0, 0x9a, 0x4f, 0xec, 0x1c, 0xcf, 0xfc, 0x1d, 1],
    ];
    for stream in streams {
        for k in 0..=3 {
            let expected = whole(stream, k);
            for cuts in 0..1 << (stream.len() - 1) {
                assert_eq!(hunted(&divided(stream, cuts), k), expected);
            }
        }
    }
}

/// Portions of sizes by chance, empty ones too.
fn at_random<'a>(chance: &mut Chance, stream: &'a [u8]) -> Vec<&'a [u8]> {
    let mut portions = Vec::new();
    let mut rest = stream;
    while !rest.is_empty() {
        let size = chance.pick(&[0, 1, 2, 3, 4, 60, 1020, 1024, 1500, 5000]);
        let (portion, behind) = rest.split_at(size.min(rest.len()));
        portions.push(portion);
        rest = behind;
    }
    portions
}

#[test]
fn random_streams_give_the_same_however_they_are_divided() {
    let mut chance = Chance::new(7);
    for seed in 0..40 {
        let stream = raw::stream(&mut Chance::new(seed), 6000);
        let k = (seed % 4) as u8;
        let expected = whole(&stream, k);
        for _ in 0..4 {
            let portions = at_random(&mut chance, &stream);
            assert_eq!(hunted(&portions, k), expected, "{seed}");
        }
    }
}

/// Wrong bits of the marker against itself, that many octets later, where the two overlap.
fn overlap(shift: usize) -> usize {
    let pairs = MARKER[shift..].iter().zip(&MARKER);
    pairs.map(|(a, b)| (a ^ b).count_ones() as usize).sum()
}

#[test]
fn the_marker_overlaps_itself_at_a_shift_of_three_octets_alone() {
    assert_eq!([1, 2, 3].map(overlap), [13, 9, 3]);
    assert_eq!(wrong_bits(&[0x1d, 0xcf, 0xfc, 0x1d]), 3);
    assert_eq!(wrong_bits(&[0x1a, 0xcf, 0xfc, 0x1a]), 3);
    let twice = [0x1a, 0xcf, 0xfc, 0x1d, 0xcf, 0xfc, 0x1d];
    assert_eq!(whole(&twice, 3).waiting, twice);
    assert_eq!(whole(&twice[1..], 3).waiting, twice[3..]);
    assert_eq!(whole(&twice[1..], 2).waiting, twice[4..]);
}

#[test]
fn wrong_bits_are_counted_over_all_32() {
    for number in 0..=32 {
        let wrong: Vec<usize> = (0..number).collect();
        assert_eq!(wrong_bits(&raw::marker(&wrong)), number);
        for k in 0..=3 {
            let taken = is_marker(&raw::marker(&wrong), k);
            assert_eq!(taken, number <= usize::from(k));
        }
    }
}

#[test]
fn begin() {
    for k in 0..=255 {
        let (hunter, answer) = stream::begin(k);
        if k <= 3 {
            assert_eq!((answer, hunter.is_sound(), hunter.k), (Ok(()), true, k));
            let begun = false;
            assert_eq!(
                Hunter {
                    begun,
                    k: 0,
                    ..hunter
                },
                Hunter::all_zero()
            );
        } else {
            assert_eq!(answer, Err(Refusal::WrongBits));
            assert_eq!(hunter, Hunter::all_zero());
            assert!(!hunter.is_sound());
        }
    }
}

/// A sound hunter, k = 1, for which some octets of a frame wait, its marker with one wrong bit.
fn waiting(octets: usize) -> Hunter {
    let frame = raw::frame_behind(&raw::marker(&[4]), &mut Chance::new(3));
    let (hunter, _) = stream::begin(1);
    let (hunter, _) = stream::hunt(&hunter, &frame[..octets], &mut [0; 1024]);
    assert_eq!(usize::from(hunter.waiting), octets);
    assert!(hunter.is_sound());
    hunter
}

/// Whether a change makes a hunter unsound; then a hunt is answered 2 and changes nothing.
fn broken(octets: usize, change: impl FnOnce(&mut Hunter)) -> bool {
    let mut hunter = waiting(octets);
    change(&mut hunter);
    let mut buffer = [0x55; 1024];
    let (after, answer) = stream::hunt(&hunter, &[7; 3000], &mut buffer);
    let refused = answer == Err(Refusal::NotSound);
    assert_eq!(refused, !hunter.is_sound());
    if refused {
        assert_eq!((&after, buffer), (&hunter, [0x55; 1024]));
        let (_, answer) = stream::hunt(&hunter, &[], &mut [0; 1023]);
        assert_eq!(answer, Err(Refusal::Memory));
    }
    refused
}

#[test]
fn each_clause_of_soundness_broken_alone() {
    assert!(broken(0, |hunter| hunter.begun = false));
    assert!(broken(0, |hunter| hunter.k = 4));
    assert!(broken(40, |hunter| hunter.k = 255));
    assert!(!broken(40, |hunter| hunter.k = 3));
    assert!(broken(1023, |hunter| hunter.waiting = 1024));
    assert!(broken(40, |hunter| hunter.waiting = 65_535));
    assert!(!broken(40, |hunter| hunter.waiting = 1023));
    assert!(broken(4, |hunter| hunter.octets[3] ^= 1));
    assert!(!broken(4, |hunter| hunter.octets[0] = 0x1a));
    assert!(!broken(3, |hunter| hunter.octets[..3].fill(0xff)));
    assert!(broken(40, |hunter| hunter.k = 0));
    for octets in [0, 3, 4, 1000] {
        assert!(broken(octets, |hunter| hunter.octets[octets] = 1));
        assert!(broken(octets, |hunter| hunter.octets[1023] = 128));
        assert!(!broken(octets, |_| {}));
    }
    assert!(!broken(1000, |hunter| hunter.octets[999] = 0));
}

#[test]
fn a_buffer_of_another_size_is_answered_1() {
    let hunter = waiting(1023);
    for size in [0, 1, 1023, 1025, 2048] {
        let mut buffer = vec![0x55; size];
        let (after, answer) = stream::hunt(&hunter, &[1, 2], &mut buffer);
        assert_eq!((after, answer), (hunter.clone(), Err(Refusal::Memory)));
        assert!(buffer.iter().all(|&octet| octet == 0x55));
    }
}

/// What `hunt` writes to standard output, and to standard error.
fn filtered(words: &[&str], input: &[u8]) -> (Vec<u8>, String) {
    let (mut out, mut said) = (Vec::new(), Vec::new());
    hunt::run(words, &mut &input[..], &mut out, &mut said);
    (out, String::from_utf8(said).expect("ASCII"))
}

#[test]
fn the_filter_writes_the_frames_of_the_whole_stream() {
    for seed in 0..12 {
        let input = raw::stream(&mut Chance::new(seed), 9000);
        for (k, word) in ["0", "1", "2", "3"].iter().enumerate() {
            let found = whole(&input, k as u8);
            let (out, said) = filtered(&[word], &input);
            let (frames, waiting) = (found.frames.len(), found.waiting.len());
            assert_eq!(out, found.frames.concat());
            assert_eq!(said, format!("END {frames} {} {waiting}\n", found.passed));
        }
        assert_eq!(filtered(&[], &input), filtered(&["0"], &input));
    }
    assert_eq!(filtered(&["2"], &[]), (vec![], "END 0 0 0\n".to_string()));
}

#[test]
fn other_arguments_are_refused_by_15() {
    let words: [&[&str]; 9] = [
        &["4"],
        &["x"],
        &[""],
        &["00"],
        &["+1"],
        &["-1"],
        &[" 1"],
        &["255"],
        &["1", "1"],
    ];
    let refused = (vec![], "hunt: 15, k is 0 to 3\n".to_string());
    for words in words {
        assert_eq!(filtered(words, &some_stream()), refused, "{words:?}");
    }
}

fn chased(script: &[u8]) -> String {
    let mut out = Vec::new();
    chase::run(script, &mut out);
    String::from_utf8(out).expect("ASCII")
}

fn last_line(out: &str) -> &str {
    out.lines().last().expect("a last line")
}

#[test]
fn chases_have_names_of_their_own_and_begin_a_hunter() {
    let cases = chases::all();
    let names: BTreeSet<&str> = cases.iter().map(|case| case.name).collect();
    assert_eq!(names.len(), cases.len());
    assert_eq!(cases[0].name, "all-zero-at-the-start");
    for case in &cases[1..] {
        let script = case.script();
        let begins = script.is_empty() || script.starts_with(b"B");
        assert!(begins, "{}", case.name);
    }
}

#[test]
fn chases_run_to_their_end_but_for_those_that_end_the_run() {
    let mut all = Vec::new();
    for case in chases::all() {
        let script = case.script();
        let ends = !last_line(&chased(&script)).ends_with(" 0");
        let named = case.name.starts_with("end-") && case.name != "end-nothing";
        assert_eq!(ends, named, "{}", case.name);
        if !ends {
            all.extend(script);
        }
    }
    assert!(last_line(&chased(&all)).ends_with(" 0"));
    assert!(all.len() < 300_000);
}

#[test]
fn of_a_script_only_524_288_octets_are_read() {
    let full = vec![b'Q'; 524_288];
    assert_eq!(chased(&full), "END 32768 0\n");
    let longer = [&full[..], b"H", &[0; 15]].concat();
    assert_eq!(chased(&longer), "END 32768 0\n");
    let shifted = [b"B", &[0; 15][..], b"Q", &full].concat();
    assert_eq!(chased(&shifted), "B 0\nEND 32768 0\n");
    let cut = [b"N", &[0, 4, 0, 0, 0, 0, 1][..], &[0; 9], &full].concat();
    assert_eq!(last_line(&chased(&cut)), "END 32767 15");
}

fn made(run: fn(u64, u64, &mut dyn std::io::Write), seed: u64, size: u64) -> Vec<u8> {
    let mut out = Vec::new();
    run(seed, size, &mut out);
    out
}

/// The letter and the answer of a line, and of a hunt whether a frame was found.
fn kind(line: &str) -> Option<String> {
    let words: Vec<&str> = line.split(' ').collect();
    match words[..] {
        ["B", answer] => Some(format!("B {answer}")),
        ["N", answer, _, found, _] => Some(format!("N {answer} {found}")),
        _ => None,
    }
}

#[test]
fn random_chases_meet_every_answer_and_end_in_every_way() {
    let mut met = BTreeSet::new();
    let mut left_over = BTreeSet::new();
    let mut frames = 0;
    for seed in 1..=16 {
        let script = made(random_chase::run, seed, 400);
        assert_eq!(script, made(random_chase::run, seed, 400));
        assert!(script.len() < 524_288);
        let out = chased(&script);
        met.extend(out.lines().filter_map(kind));
        frames += out
            .lines()
            .filter_map(kind)
            .filter(|kind| kind == "N 0 1")
            .count();
        left_over.extend(last_line(&out).split(' ').nth(2).map(str::to_string));
        assert!(out.lines().count() > 200, "{seed}");
    }
    let all = ["B 0", "B 15", "N 0 0", "N 0 1", "N 1 0", "N 2 0"];
    assert_eq!(met, all.map(str::to_string).into());
    assert!(frames > 500, "{frames}");
    assert!(left_over.len() > 3, "{left_over:?}");
}

#[test]
fn random_raw_streams_have_frames_by_every_k_and_end_anywhere() {
    let mut ends = BTreeSet::new();
    let mut frames = [0; 4];
    for seed in 0..40 {
        let stream = made(raw::run, seed, 6000);
        assert_eq!(stream, made(raw::run, seed, 6000));
        assert!((3000..9100).contains(&stream.len()));
        for k in 0..=3 {
            let found = whole(&stream, k);
            frames[usize::from(k)] += found.frames.len();
            ends.insert(found.waiting.len().min(4));
        }
    }
    assert!(frames.is_sorted_by(|a, b| a < b), "{frames:?}");
    assert!(ends.contains(&3) && ends.contains(&4));
}

fn loaded(name: &str, size: usize) -> Vec<u8> {
    let mut out = Vec::new();
    assert!(loads::run(name, size, &mut out), "{name}");
    out
}

#[test]
fn a_load_in_step_is_frames_alone() {
    let load = loaded("raw-step", 7);
    assert_eq!(loaded("raw-step", 3), load[..3 * 1024]);
    for k in 0..=3 {
        let found = whole(&load, k);
        assert_eq!((found.frames.concat(), found.passed), (load.clone(), 0));
        assert!(found.waiting.is_empty());
    }
    for frame in load.chunks(1024) {
        assert!(!frame[1..].windows(4).any(|four| is_marker(four, 3)));
    }
}

#[test]
fn a_load_of_noise_has_no_marker() {
    let load = loaded("raw-noise", 30);
    assert_eq!(load.len(), 30 * 1024);
    assert_eq!(loaded("raw-noise", 3), load[..3 * 1024]);
    assert!(!load.windows(4).any(|four| is_marker(four, 3)));
    assert_eq!(whole(&load, 3).passed, 30 * 1024 - 3);
}

#[test]
fn rubbish_as_scripts_and_streams_ends() {
    let mut chance = Chance::new(11);
    for size in 0..300 {
        let rubbish = chance.octets(size * 7);
        assert!(last_line(&chased(&rubbish)).starts_with("END "));
        assert!(filtered(&["3"], &rubbish).1.starts_with("END 0 "));
    }
    for seed in 1..=10 {
        let mut script = made(random_chase::run, seed, 60);
        for _ in 0..10 {
            chance.damage(&mut script);
            assert!(last_line(&chased(&script)).starts_with("END "));
        }
    }
}
