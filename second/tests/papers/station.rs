//! 01's cases over frames and files.

use second::makers::make;
use second::model::packet::{Application, Flags};
use second::model::station::{self, Refusal};

use crate::memory::{damaged, file, frame, packet, Station};

/// Seven blocks, one held and complete file of 5 of application 10 in slot 0.
fn with_file_of_5() -> Station {
    let mut station = Station::new(&[0, 1, 2, 3], 7);
    let events = station.packets(0, &file(0, 10, 5).packets(16_382));
    let kinds: Vec<u16> = events.iter().map(|event| event[0]).collect();
    assert_eq!(kinds, [10, 11, 11, 11, 12]);
    station
}

#[test]
fn seven_blocks_need_2_opens() {
    let mut station = with_file_of_5();
    let first = file(1, 11, 2).packets(0)[0].clone();
    assert_eq!(station.packets(1, &[first]), [[10, 11, 1]]);
    assert_eq!(station.state.blocks_of(1), [5, 6]);
}

#[test]
fn seven_blocks_need_3_gives_9() {
    let mut station = with_file_of_5();
    let before = station.store.clone();
    let first = file(1, 11, 3).packets(0)[0].clone();
    assert_eq!(station.packets(1, &[first]), [[9, 11, 0]]);
    assert_eq!(station.store, before);
}

/// "after the held file's release N = 7 opens"
#[test]
fn seven_blocks_need_7_opens_after_the_file_is_let_go() {
    let mut station = with_file_of_5();
    assert_eq!(station::let_go(&mut station.state, 0), Ok(true));
    let first = file(1, 11, 7).packets(0)[0].clone();
    assert_eq!(station.packets(1, &[first]), [[10, 11, 0]]);
    assert_eq!(station.state.blocks_of(0), [0, 1, 2, 3, 4, 5, 6]);
    assert_eq!(station::let_go(&mut station.state, 0), Ok(false));
    assert_eq!(
        station::let_go(&mut station.state, 0),
        Err(Refusal::NoHeldSlot)
    );
}

#[test]
fn a_read_gives_the_octets_sent() {
    let station = with_file_of_5();
    let sent = file(0, 10, 5).octets;
    let mut all = vec![0; sent.len()];
    let read = |offset, buffer: &mut [u8]| {
        station::read(&station.state, &station.store, 0, offset, buffer)
    };
    assert_eq!(read(0, &mut all), Ok(()));
    assert_eq!(all, sent);
    let mut some = [0; 10];
    assert_eq!(read(8175, &mut some), Ok(()));
    assert_eq!(some, sent[8175..8185]);
    let end = sent.len() as u64;
    assert_eq!(read(end, &mut []), Ok(()));
    assert_eq!(read(end + 1, &mut []), Err(Refusal::PastEnd));
    assert_eq!(read(end - 9, &mut some), Err(Refusal::PastEnd));
    assert_eq!(read(u64::MAX, &mut some), Err(Refusal::PastEnd));
}

/// The events of a whole packet with so many octets of a file behind the ten of transport.
fn whole_of_bits(station: &mut Station, length: u64, octets: &[u8]) -> Vec<[u16; 3]> {
    let data = [&[0, 0], &length.to_be_bytes()[..], octets].concat();
    station.packets(0, &[packet(5, Flags::Whole, 0, &data)])
}

/// 02, 2/14: "The case L = 12 changes to N = 1 with 12 octets of data."
#[test]
fn a_bit_length_of_12_has_12_octets_of_data() {
    let mut station = Station::new(&[0], 7);
    let octets = [0xab, 0xcf, 0x55];
    for (length, number) in [(12, 0), (12, 1), (12, 3), (0, 0), (0, 1), (0, 2)] {
        let events = whole_of_bits(&mut station, length, &octets[..number]);
        assert_eq!(events, [[7, 5, 0]], "{length} {number}");
    }
    assert_eq!(
        whole_of_bits(&mut station, 12, &octets[..2]),
        [[10, 5, 0], [12, 5, 0]]
    );
    let read = |offset, size| {
        let mut buffer = vec![0; size];
        station::read(&station.state, &station.store, 0, offset, &mut buffer).map(|()| buffer)
    };
    assert_eq!(read(0, 2), Ok(vec![0xab, 0xcf]));
    assert_eq!(read(1, 1), Ok(vec![0xcf]));
    assert_eq!(read(2, 0), Ok(vec![]));
    for (offset, size) in [(0, 3), (1, 2), (2, 1), (3, 0)] {
        assert_eq!(read(offset, size), Err(Refusal::PastEnd));
    }
}

#[test]
fn a_file_whose_last_octet_is_filled_up_is_read_to_its_end() {
    for filler in 1..8 {
        let file = file(0, 10, 3).with_filler(filler);
        let mut station = Station::new(&[0], 3);
        let events = station.packets(0, &file.packets(16_382));
        assert_eq!(events, [[10, 10, 0], [11, 10, 0], [12, 10, 0]]);
        let mut all = vec![0; file.octets.len()];
        let read = |offset, buffer: &mut [u8]| {
            station::read(&station.state, &station.store, 0, offset, buffer)
        };
        assert_eq!(read(0, &mut all), Ok(()));
        assert_eq!(all, file.octets);
        assert_eq!(read(1, &mut all), Err(Refusal::PastEnd));
        assert_eq!(read(all.len() as u64, &mut []), Ok(()));
        assert_eq!(read(all.len() as u64 + 1, &mut []), Err(Refusal::PastEnd));
    }
}

/// 02, 2/14: "Demand 3 stands with the new need." Two blocks have 2 x 8,190 - 10 = 16,370 octets,
/// 130,960 bits.
#[test]
fn seven_blocks_one_bit_more_than_two_have_gives_9() {
    for (length, event) in [(130_960, [10, 11, 1]), (130_961, [9, 11, 0])] {
        let mut station = with_file_of_5();
        let mut data = [&[0, 0], &u64::to_be_bytes(length)[..]].concat();
        data.resize(8190, 0);
        let first = packet(11, Flags::First, 0, &data);
        assert_eq!(station.packets(1, &[first]), [event], "{length}");
    }
}

/// Frames with a first packet of 8,198 octets that lacks `lacked` octets in the last but
/// nothing else.
fn first_packet_that_lacks(lacked: usize) -> Vec<Vec<u8>> {
    let before = (8198 - lacked) % 884;
    let first = file(0, 5, 2).packets(0)[0].clone();
    let mut frames = make::frames(
        1,
        second::model::frame::Channel(0),
        0,
        &[make::fill(884 - before), first],
    );
    frames.truncate((8198 - lacked).div_ceil(884) + 1);
    frames
}

/// The events of the last of those frames, when its pointer is another.
fn events_with_pointer(lacked: usize, pointer: u16) -> (Vec<[u16; 3]>, usize) {
    let mut station = Station::new(&[0], 7);
    let frames = first_packet_that_lacks(lacked);
    let (last, before) = frames.split_last().expect("frames");
    assert!(station.frames(before).is_empty());
    assert_eq!(station.held(0), 8198 - lacked);
    let zone = second::model::frame::zone(&second::model::frame::derandomised(last)).to_vec();
    let events = station.frame(&frame(0, before.len() as u32, pointer, &zone));
    (events.expect("answer 0"), station.held(0))
}

#[test]
fn a_packet_that_lacks_884_wants_2047() {
    assert_eq!(events_with_pointer(884, 2047), (vec![[10, 5, 0]], 0));
    let (events, _) = events_with_pointer(884, 883);
    assert_eq!(events, [[2, 0, 0]]);
}

#[test]
fn a_packet_that_lacks_883_wants_883() {
    let (events, held) = events_with_pointer(883, 883);
    assert_eq!((events, held), (vec![[10, 5, 0]], 1));
    assert_eq!(events_with_pointer(883, 2047), (vec![[2, 0, 0]], 0));
    assert_eq!(events_with_pointer(883, 882).0, [[2, 0, 0]]);
}

#[test]
fn the_frame_of_151_events() {
    let mut station = Station::new(&[0], 65);
    for application in 0..32 {
        let first = file(0, application, 2).packets(0)[0].clone();
        assert_eq!(
            station.packets(0, &[first]),
            [[10, application, application]]
        );
    }
    let first = file(0, 0, 2).packets(0)[0].clone();
    let carried = [make::fill(643), first].concat();
    for (index, zone) in carried[..8840].chunks(884).enumerate() {
        let pointer = if index == 0 { 0 } else { 2047 };
        let counter = station.next_counter(0);
        assert_eq!(station.frame(&frame(0, counter, pointer, zone)), Ok(vec![]));
    }
    assert_eq!(station.held(0), 8197);
    let events = station.frame(&frame(
        0,
        station.next_counter(0),
        1,
        &zone_of_151(&carried),
    ));
    let events = events.expect("answer 0");
    let of_kind = |kind| events.iter().filter(|event| event[0] == kind).count();
    assert_eq!((events.len(), station.held(0)), (151, 0));
    assert_eq!([6, 7, 10, 13].map(of_kind), [33, 32, 1, 85]);
    assert_eq!(events[..4], [[6, 0, 0], [10, 0, 0], [6, 0, 0], [7, 0, 0]]);
}

fn zone_of_151(carried: &[u8]) -> Vec<u8> {
    let mut zone = vec![carried[8840]];
    for application in 0..32 {
        zone.extend(packet(application, Flags::First, 0, &[0]));
    }
    for _ in 0..85 {
        zone.extend(make::zeros(Application(2016), 7));
    }
    assert_eq!(zone.len(), 884);
    zone
}

#[test]
fn a_wrong_crc_abandons_nothing() {
    let mut station = Station::new(&[0], 7);
    let packets = file(0, 5, 3).packets(0);
    let again = damaged(packets[0].clone());
    let sent = [
        packets[0].clone(),
        again,
        packets[1].clone(),
        packets[2].clone(),
    ];
    assert_eq!(
        station.packets(0, &sent),
        [[10, 5, 0], [4, 5, 0], [11, 5, 0], [12, 5, 0]]
    );
}

#[test]
fn a_lost_packet_shows_at_the_next() {
    let mut station = Station::new(&[0], 7);
    let packets = file(0, 5, 4).packets(0);
    let sent = [packets[0].clone(), packets[2].clone(), packets[3].clone()];
    assert_eq!(
        station.packets(0, &sent),
        [[10, 5, 0], [6, 5, 0], [5, 5, 0]]
    );
    assert_eq!(station.state.free_blocks().len(), 7);
}

#[test]
fn a_repeated_first_packet_abandons_and_opens() {
    let mut station = Station::new(&[0], 2);
    let first = file(0, 5, 2).packets(0)[0].clone();
    let events = station.packets(0, &[first.clone(), first]);
    assert_eq!(events, [[10, 5, 0], [6, 5, 0], [10, 5, 0]]);
}

#[test]
fn two_channels_have_two_files_of_one_application() {
    let mut station = Station::new(&[3, 1], 7);
    let (three, one) = (file(3, 5, 2).packets(0), file(1, 5, 3).packets(9));
    assert_eq!(station.packets(3, &three[..1]), [[10, 5, 0]]);
    assert_eq!(station.packets(1, &one[..2]), [[10, 5, 1], [11, 5, 1]]);
    assert_eq!(station.packets(3, &three[1..]), [[12, 5, 0]]);
    assert_eq!(station.packets(1, &one[2..]), [[12, 5, 1]]);
}

#[test]
fn a_gap_drops_what_is_held() {
    let mut station = Station::new(&[0], 7);
    let frames = make::frames(
        1,
        second::model::frame::Channel(0),
        0,
        &file(0, 5, 1).packets(0),
    );
    assert_eq!(station.frame(&frames[0]), Ok(vec![]));
    assert_eq!(station.held(0), 884);
    assert_eq!(station.frame(&frames[0]), Ok(vec![[1, 0, 0]]));
    assert_eq!(station.held(0), 884);
    assert_eq!(station.frame(&frames[2]), Ok(vec![[1, 0, 0]]));
    assert_eq!(station.held(0), 0);
    assert!(station.desks.iter().all(|&octet| octet == 0));
}

#[test]
fn a_bad_header_carried_on_does_not_drop_the_zone() {
    let mut station = Station::new(&[0], 7);
    let whole = file(0, 5, 1).packets(0)[0].clone();
    let zone = [make::fill(881), vec![0xe0, 0, 0]].concat();
    assert_eq!(station.frame(&frame(0, 0, 0, &zone)), Ok(vec![]));
    assert_eq!(station.held(0), 3);
    let zone = [packet(2015, Flags::Last, 0, &[7]), whole].concat();
    assert_eq!(
        station.frame(&frame(0, 1, 0, &zone)),
        Ok(vec![[3, 0, 0], [5, 2015, 0]])
    );
    assert_eq!(station.held(0), 884 - 9);
}

#[test]
fn a_bad_header_in_the_zone_drops_the_rest() {
    let mut station = Station::new(&[0], 7);
    let zone = [
        make::zeros(Application(2046), 7),
        vec![0xe0; 10],
        make::fill(100),
    ]
    .concat();
    assert_eq!(
        station.frame(&frame(0, 0, 0, &zone)),
        Ok(vec![[13, 2046, 0], [3, 0, 0]])
    );
    assert_eq!(station.held(0), 0);
}

#[test]
fn five_octets_left_are_not_judged_and_six_are() {
    for (left, events) in [(5, vec![]), (6, vec![[3, 0, 0]])] {
        let mut station = Station::new(&[0], 7);
        let zone = [make::fill(884 - left), vec![0xff; left]].concat();
        assert_eq!(station.frame(&frame(0, 0, 0, &zone)), Ok(events));
        assert_eq!(station.held(0), if left == 5 { 5 } else { 0 });
    }
}

#[test]
fn all_slots_held_gives_8_before_9() {
    let mut station = Station::new(&[0], 32);
    let whole = make::File::of(
        second::model::frame::Channel(0),
        Application(1),
        7,
        &[1, 2, 3],
    );
    let many: Vec<Vec<u8>> = (0..33).flat_map(|_| whole.packets(0)).collect();
    let events = station.packets(0, &many);
    assert_eq!(events.len(), 65);
    assert_eq!(events[62..], [[10, 1, 31], [12, 1, 31], [8, 1, 0]]);
    assert_eq!(
        station.store[31 * 8190..31 * 8190 + 14],
        [0, 7, 0, 0, 0, 0, 0, 0, 0, 24, 1, 2, 3, 0xaa]
    );
}
