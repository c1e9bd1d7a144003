//! docs/CATALOGUE.md and 02, 5/14: the stored form, the calls, `printout` and the clerk script.

use second::makers::catalogues;
use second::makers::chance::Chance;
use second::makers::make_catalogue::{
    channel_entry, facts, file_entry, greatest, lrit, picture, pictures, plain, plain_files,
    Sections,
};
use second::makers::make_header::{self, image, segment};
use second::model::catalogue::{self, File, Numbers, Refusal};
use second::model::{clerk, printout, records};

/// The two files that the page prints.
fn printed() -> Vec<File> {
    vec![
        picture(facts(5, 160, 12, 65_440), 2200, 220, (3, 10)),
        plain(facts(1, 32, 255, 12), 2),
    ]
}

/// The same, written by hand.
const STORED: &[u8] = &[
    0, 2, //
    5, 0, 160, 0, 12, 0, 0, 0, 0, 0, 0, 0xff, 0xa0, 0, //
    1, 0, 32, 0, 255, 0, 0, 0, 0, 0, 0, 0, 12, 2, //
    0, 1, //
    0, 0, 8, 152, 0, 220, 3, 10, //
    0, 2, //
    1, 0, 1, //
    5, 0, 1,
];

#[test]
fn the_stored_form_written_by_hand() {
    assert_eq!(catalogue::written(&printed()), STORED);
    assert_eq!(catalogue::listed(STORED), Some(printed()));
    assert_eq!(catalogue::written(&[]), [0; 6]);
    assert_eq!(catalogue::listed(&[0; 6]), Some(vec![]));
}

/// "the longest catalogue has 22,723 octets (1,024 files, 1,024 images, 63 channels)"
#[test]
fn the_greatest_catalogue() {
    let stored = catalogue::written(&greatest());
    assert_eq!(stored.len(), 22_723);
    assert_eq!(catalogue::listed(&stored), Some(greatest()));
    let numbers = Numbers {
        files: 1024,
        images: 1024,
        channels: 63,
    };
    assert_eq!(catalogue::read(&stored), Ok(numbers));
}

#[test]
fn what_is_written_is_read_back_and_is_what_the_sections_are() {
    let mut chance = Chance::new(5);
    for _ in 0..150 {
        let list = catalogues::some_list(&mut chance);
        let stored = catalogue::written(&list);
        assert_eq!(stored, Sections::of(&list).octets());
        assert!(catalogue::listed(&stored) == Some(list));
    }
}

/// The page's second paragraph on the stored form, clause by clause, without a list: an entry's
/// numbers are taken from their places.
fn is_catalogue(octets: &[u8]) -> bool {
    let number = |place: usize, width: usize| {
        let field = octets.get(place..place + width)?;
        Some(field.iter().fold(0u64, |n, &o| n << 8 | u64::from(o)))
    };
    let judged = || {
        let files = number(0, 2)? as usize;
        let images_at = 2 + 14 * files;
        let images = number(images_at, 2)? as usize;
        let channels_at = images_at + 2 + 8 * images;
        let channels = number(channels_at, 2)? as usize;
        let all = channels_at + 2 + 3 * channels == octets.len() && files <= 1024;
        if !all {
            return Some(false);
        }
        let of_file = |k: usize, from: usize, width| number(2 + 14 * k + from, width).unwrap();
        let good = |k| of_file(k, 0, 1) <= 62 && of_file(k, 1, 2) <= 2015 && of_file(k, 5, 8) >= 1;
        let index = |k: usize| number(images_at + 2 + 8 * k, 2).unwrap();
        let rising = (1..images).all(|k| index(k - 1) < index(k));
        let within = (0..images).all(|k| index(k) < files as u64);
        let at = |k: usize| channels_at + 2 + 3 * k;
        let entry = |k: usize| (number(at(k), 1).unwrap(), number(at(k) + 1, 2).unwrap());
        let counted = |channel| (0..files).filter(|&k| of_file(k, 0, 1) == channel).count();
        let each: Vec<(u64, u64)> = (0..256)
            .map(|channel| (channel, counted(channel) as u64))
            .filter(|&(_, count)| count > 0)
            .collect();
        let same = (0..channels).map(entry).eq(each);
        Some((0..files).all(good) && rising && within && same)
    };
    judged().unwrap_or(false)
}

#[test]
fn the_reader_takes_exactly_what_the_clauses_take() {
    let mut chance = Chance::new(6);
    let (mut good, mut bad) = (0, 0);
    for _ in 0..3000 {
        let files = chance.below(6);
        let list: Vec<File> = (0..files)
            .map(|_| catalogues::some_file(&mut chance))
            .collect();
        let octets = match chance.one_in(5) {
            true => catalogue::written(&list),
            false => catalogues::damaged(&mut chance, &list),
        };
        let taken = catalogue::listed(&octets).is_some();
        assert_eq!(taken, is_catalogue(&octets), "{octets:?}");
        good += usize::from(taken);
        bad += usize::from(!taken);
    }
    assert!(good > 500 && bad > 500, "{good} {bad}");
}

#[test]
fn each_octet_changed_is_judged_by_the_clauses() {
    let stored = catalogue::written(&printed());
    for place in 0..stored.len() {
        for octet in 0..=255 {
            let mut changed = stored.clone();
            changed[place] = octet;
            let taken = catalogue::listed(&changed).is_some();
            assert_eq!(taken, is_catalogue(&changed), "{place} {octet}");
        }
    }
}

fn refused(octets: &[u8]) {
    assert_eq!(catalogue::read(octets), Err(Refusal::NoCatalogue));
    for n in [0, 1, u64::MAX] {
        assert_eq!(catalogue::file(octets, n), Err(Refusal::NoCatalogue));
        assert_eq!(catalogue::image(octets, n), Err(Refusal::NoCatalogue));
        assert_eq!(catalogue::channel(octets, n), Err(Refusal::NoCatalogue));
    }
}

#[test]
fn octets_cut_or_behind_are_refused() {
    for cut in 0..STORED.len() {
        refused(&STORED[..cut]);
    }
    for octet in [0, 1, 255] {
        refused(&[STORED, &[octet]].concat());
    }
}

#[test]
fn one_file_too_many_is_refused() {
    assert!(catalogue::listed(&Sections::of(&plain_files(1024, 7)).octets()).is_some());
    refused(&Sections::of(&plain_files(1025, 7)).octets());
}

#[test]
fn bounds_of_a_file() {
    for (channel, application, length, good) in [
        (62, 2015, 1, true),
        (0, 0, u64::MAX, true),
        (63, 0, 1, false),
        (255, 0, 1, false),
        (0, 2016, 1, false),
        (0, 65_535, 1, false),
        (0, 0, 0, false),
    ] {
        let list = [plain(facts(channel, application, 0, length), 0)];
        let stored = Sections::of(&list).octets();
        assert_eq!(catalogue::listed(&stored).is_some(), good);
        let mut buffer = vec![0; 40];
        let answer = catalogue::enter(&mut buffer, 6, &list[0].facts, &lrit(&list[0]));
        assert_eq!(
            answer,
            [Err(Refusal::NoCatalogue), Ok(23)][usize::from(good)]
        );
        assert_eq!(buffer[..23] == stored, good);
    }
}

#[test]
fn channels_are_what_counting_gives() {
    let good = Sections::of(&printed());
    for channels in [
        vec![(5, 1), (1, 1)],
        vec![(1, 1)],
        vec![(5, 1)],
        vec![(1, 1), (1, 1), (5, 1)],
        vec![(1, 1), (3, 0), (5, 1)],
        vec![(1, 2), (5, 1)],
        vec![(1, 0), (5, 1)],
        vec![],
    ] {
        let channels = channels.into_iter().map(|(c, n)| channel_entry(c, n));
        let sections = Sections {
            channels: channels.collect(),
            ..good.clone()
        };
        refused(&sections.octets());
    }
}

#[test]
fn begin_wants_six_octets() {
    for lent in 0..6 {
        let mut buffer = vec![7; lent];
        assert_eq!(catalogue::begin(&mut buffer), Err(Refusal::ShortBuffer));
        assert_eq!(buffer, vec![7; lent]);
    }
    let mut buffer = [7; 9];
    assert_eq!(catalogue::begin(&mut buffer), Ok(6));
    assert_eq!(buffer, [0, 0, 0, 0, 0, 0, 7, 7, 7]);
}

/// Files entered one by one give what is written for the list of them, and no octet behind it is
/// changed.
#[test]
fn entering_is_writing_the_longer_list() {
    let mut chance = Chance::new(7);
    for _ in 0..20 {
        let list: Vec<File> = (0..30)
            .map(|_| catalogues::some_file(&mut chance))
            .collect();
        let mut buffer = vec![0xee; 1200];
        let mut octets = catalogue::begin(&mut buffer).expect("room");
        for (index, file) in list.iter().enumerate() {
            let answer = catalogue::enter(&mut buffer, octets as u64, &file.facts, &lrit(file));
            octets = answer.expect("room");
            assert_eq!(buffer[..octets], catalogue::written(&list[..=index]));
            assert!(buffer[octets..].iter().all(|&octet| octet == 0xee));
        }
    }
}

#[test]
fn the_buffer_may_be_exactly_long_enough() {
    let before = catalogue::written(&printed());
    for (file, more) in [
        (plain(facts(1, 0, 0, 1), 0), 14),
        (plain(facts(2, 0, 0, 1), 0), 17),
        (picture(facts(1, 0, 0, 1), 1, 1, (1, 1)), 22),
        (picture(facts(0, 0, 0, 1), 1, 1, (1, 1)), 25),
    ] {
        let octets = before.len() as u64;
        let mut short = [&before[..], &vec![9; more - 1]].concat();
        let untouched = short.clone();
        let answer = catalogue::enter(&mut short, octets, &file.facts, &lrit(&file));
        assert_eq!(answer, Err(Refusal::ShortBuffer));
        assert_eq!(short, untouched);
        let mut enough = [&before[..], &vec![9; more]].concat();
        let answer = catalogue::enter(&mut enough, octets, &file.facts, &lrit(&file));
        assert_eq!(answer, Ok(before.len() + more));
        assert_eq!(catalogue::listed(&enough).map(|list| list.len()), Some(3));
    }
}

/// "A segment record without an image structure record says nothing here", and zeros stand where
/// there is no segment record.
#[test]
fn an_entry_says_what_the_header_says() {
    for (records, expected) in [
        (vec![], None),
        (vec![segment(1, 2, 3)], None),
        (vec![image(8, 11, 12, 0)], Some((11, 12, 0, 0))),
        (
            vec![image(8, 11, 12, 0), segment(1, 2, 3)],
            Some((11, 12, 1, 2)),
        ),
        (
            vec![segment(1, 2, 3), image(8, 11, 12, 0)],
            Some((11, 12, 1, 2)),
        ),
    ] {
        let mut buffer = vec![0; 100];
        let file = make_header::file(77, &records, &[1, 2, 3]);
        let octets = catalogue::enter(&mut buffer, 6, &facts(3, 4, 5, 6), &file).expect("room");
        let entered = catalogue::file(&buffer[..octets], 0).expect("a catalogue");
        let entered = entered.expect("a file");
        assert_eq!(entered.file_type, 77);
        let image = entered
            .image
            .map(|image| (image.columns, image.lines, image.number, image.total));
        assert_eq!(image, expected);
    }
}

/// A header refused by 26, a full catalogue, what is none, bad facts, and no room: of those that
/// come together the lowest number is given, and nothing is changed.
#[test]
fn the_lowest_number_that_applies() {
    let (full, some) = (plain_files(1024, 1), printed());
    let (good, bad) = (lrit(&some[1]), [lrit(&some[1]), vec![0]].concat());
    let header = Refusal::Header(records::Refusal::DataLength);
    for (list, file, channel, spoilt, room, expected) in [
        (&full, &bad, 63, false, 0, header),
        (&some, &bad, 63, true, 0, header),
        (&some, &bad, 5, false, 100, header),
        (&full, &good, 63, false, 0, Refusal::Full),
        (&full, &good, 5, false, 100, Refusal::Full),
        (&full, &good, 5, true, 100, Refusal::NoCatalogue),
        (&some, &good, 63, false, 0, Refusal::NoCatalogue),
        (&some, &good, 5, true, 0, Refusal::NoCatalogue),
        (&some, &good, 5, false, 13, Refusal::ShortBuffer),
    ] {
        let mut buffer = catalogue::written(list);
        let octets = buffer.len() as u64 - u64::from(spoilt);
        buffer.extend(vec![3; room]);
        let before = buffer.clone();
        let answer = catalogue::enter(&mut buffer, octets, &facts(channel, 7, 8, 9), file);
        assert_eq!(answer, Err(expected));
        assert!(buffer == before);
    }
}

#[test]
fn a_number_of_octets_that_is_not_the_catalogues_is_refused() {
    let file = &printed()[1];
    let octets = STORED.len() as u64;
    for number in [0, 6, octets - 1, octets + 1, 1000, 1001, 1 << 32, u64::MAX] {
        let mut buffer = STORED.to_vec();
        buffer.resize(1000, 0);
        let answer = catalogue::enter(&mut buffer, number, &file.facts, &lrit(file));
        assert_eq!(answer, Err(Refusal::NoCatalogue), "{number}");
    }
}

#[test]
fn the_1024th_file_is_entered_and_the_next_is_not() {
    let list = pictures(1024, 63);
    let mut buffer = vec![0; 32_768];
    let before = catalogue::written(&list[..1023]);
    buffer[..before.len()].copy_from_slice(&before);
    let (last, octets) = (&list[1023], before.len() as u64);
    let answer = catalogue::enter(&mut buffer, octets, &last.facts, &lrit(last));
    assert_eq!(answer, Ok(22_723));
    assert_eq!(catalogue::listed(&buffer[..22_723]), Some(list.clone()));
    let answer = catalogue::enter(&mut buffer, 22_723, &last.facts, &lrit(last));
    assert_eq!(catalogue::number(&answer), 30);
}

#[test]
fn entries_are_numbered_from_0() {
    for (n, file) in printed().into_iter().enumerate() {
        let entry = catalogue::file(STORED, n as u64).expect("a catalogue");
        assert_eq!(entry.as_ref(), Some(&file));
        assert_eq!(
            entry.map(|file| file_entry(&file)),
            Some(STORED[2 + 14 * n..][..14].to_vec())
        );
    }
    for n in [2, 65_536, 65_537, 1 << 32, u64::MAX] {
        assert_eq!(catalogue::file(STORED, n), Ok(None));
        assert_eq!(catalogue::image(STORED, n - 1), Ok(None));
        assert_eq!(catalogue::channel(STORED, n), Ok(None));
    }
}

fn printed_out(octets: &[u8]) -> String {
    let mut out = Vec::new();
    printout::run(&mut &octets[..], &mut out);
    String::from_utf8(out).expect("ASCII")
}

/// The lines that the page prints.
#[test]
fn the_page_s_printout() {
    let lines = "file 0 channel 5 application 160 counter 12 bits 65440 type 0 image 2200 by 220 \
                 segment 3 of 10\nfile 1 channel 1 application 32 counter 255 bits 12 type 2\n\
                 channel 1 files 1\nchannel 5 files 1\nEND 2 1 2\n";
    assert_eq!(printed_out(STORED), lines);
    assert_eq!(printed_out(&[0; 6]), "END 0 0 0\n");
    for none in [
        &[][..],
        &[0; 5],
        &[0; 7],
        &vec![0; 32_768],
        &vec![0; 100_000],
    ] {
        assert_eq!(printed_out(none), "refused 31\n");
    }
}

fn command(letter: u8, a: u8, b: u16, c: u32, d: u64, payload: &[u8]) -> Vec<u8> {
    let fixed = [
        &[letter, a][..],
        &b.to_be_bytes(),
        &c.to_be_bytes(),
        &d.to_be_bytes(),
    ]
    .concat();
    [fixed, payload.to_vec()].concat()
}

fn plain_command(letter: u8, d: u64) -> Vec<u8> {
    command(letter, 0, 0, 0, d, &[])
}

fn clerked(commands: &[Vec<u8>]) -> String {
    let mut out = Vec::new();
    clerk::run(&commands.concat(), &mut out);
    String::from_utf8(out).expect("ASCII")
}

/// The two files of the page, entered by a script.
#[test]
fn the_page_s_files_clerked() {
    let files = printed();
    let (first, second) = (lrit(&files[0]), lrit(&files[1]));
    let mut buffer = STORED.to_vec();
    buffer.resize(32_768, 0);
    let check = second::model::crc::crc(&buffer);
    let out = clerked(&[
        command(b'M', 9, 9, 100, 0, &[]),
        plain_command(b'B', 9),
        command(b'E', 5, 160, 12 << 16 | first.len() as u32, 65_440, &first),
        command(b'E', 1, 32, 255 << 16 | second.len() as u32, 12, &second),
        plain_command(b'J', 9),
        plain_command(b'F', 0),
        plain_command(b'F', 1),
        plain_command(b'F', 2),
        plain_command(b'I', 0),
        plain_command(b'I', 1),
        plain_command(b'C', 0),
        plain_command(b'C', 1),
        plain_command(b'C', 1 << 32),
        plain_command(b'H', 9),
    ]);
    let expected = format!(
        "B 0 6\nE 0 31\nE 0 48\nJ 0 2 1 2\nF 0 5 160 12 65440 0\nF 0 1 32 255 12 2\nF 0\n\
         I 0 0 2200 220 3 10\nI 0\nC 0 1 1\nC 0 5 1\nC 0\nH 100 48 {check}\nEND 14 0\n"
    );
    assert_eq!(out, expected);
}

#[test]
fn lent_and_said_and_poked() {
    let zeros = second::model::crc::crc(&vec![0; 32_768]);
    let out = clerked(&[
        plain_command(b'B', 0),
        plain_command(b'J', 0),
        command(b'M', 0, 0, 32_769, u64::MAX, &[]),
        plain_command(b'J', 0),
        plain_command(b'H', 0),
        command(b'M', 0, 0, 6, u64::MAX, &[]),
        plain_command(b'J', 0),
        command(b'P', 0, 0x1ff, 0, 1, &[]),
        plain_command(b'J', 0),
        command(b'P', 0, 0x100, 0, 1, &[]),
        command(b'P', 0, 0x55, 0, 32_768, &[]),
        command(b'P', 0, 0x55, 0, u64::MAX, &[]),
        command(b'W', 0, 0, 0, 0, &[]),
        plain_command(b'J', 0),
        command(b'W', 0, 0, 32_768, 0, &vec![0; 32_768]),
        plain_command(b'J', 0),
        plain_command(b'H', 0),
    ]);
    let expected = format!(
        "B 34\nJ 31\nJ 31\nH 32768 18446744073709551615 {zeros}\nJ 0 0 0 0\nJ 31\nJ 31\n\
         J 0 0 0 0\nH 6 32768 {zeros}\nEND 17 0\n"
    );
    assert_eq!(out, expected);
}

#[test]
fn where_a_run_ends() {
    for (script, left) in [
        (vec![], 0),
        (vec![b'H'; 15], 15),
        (plain_command(b'X', 0), 16),
        (plain_command(b'j', 0), 16),
        (plain_command(b'S', 0), 16),
        (command(b'W', 0, 0, 32_769, 0, &vec![0; 32_769]), 32_785),
        (command(b'W', 0, 0, u32::MAX, 0, &[]), 16),
        (command(b'W', 0, 0, 4, 0, &[0; 3]), 19),
        (command(b'E', 0, 0, 4, 1, &[0; 3]), 19),
        (command(b'E', 0, 0, 65_535, 1, &[0; 100]), 116),
    ] {
        assert_eq!(clerked(&[script]), format!("END 0 {left}\n"));
    }
}

#[test]
fn of_a_script_only_524_288_octets_are_read() {
    let full = vec![b'P'; 524_288];
    assert_eq!(clerked(std::slice::from_ref(&full)), "END 32768 0\n");
    let longer = [&full[..], b"J", &[0; 15]].concat();
    assert_eq!(clerked(&[longer]), "END 32768 0\n");
    let shifted = [&[b'P'; 3], &full[3..], &[b'J'; 16]].concat();
    assert_eq!(clerked(&[shifted]), "END 32768 0\n");
    let cut = [command(b'W', 0, 0, 1, 0, &[0]), full].concat();
    assert_eq!(clerked(&[cut]), "END 32767 15\n");
}
