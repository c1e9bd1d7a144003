//! Every clause of 01's soundness broken alone.

use second::makers::make;
use second::model::frame::Channel;
use second::model::packet::Application;
use second::model::station::{self, Refusal, State};

use crate::memory::{file, frame, Station};

/// Channels 0 and 3; slot 0 complete of need 1, slots 1 and 2 incomplete of need 2; 884 octets
/// on the desk of channel 0.
fn busy() -> Station {
    let mut station = Station::new(&[0, 3], 7);
    station.packets(0, &file(0, 5, 1).packets(0));
    station.packets(0, &file(0, 5, 2).packets(0)[..1]);
    station.packets(3, &file(3, 5, 2).packets(16_383)[..1]);
    let zone = make::fill(2000)[..884].to_vec();
    let counter = station.next_counter(0);
    assert_eq!(station.frame(&frame(0, counter, 0, &zone)), Ok(vec![]));
    assert_eq!(station.held(0), 884);
    station
}

/// The numbers of a read of slot 0, of slot 1 let go, and of a frame, none of which changes the
/// station.
fn answers(station: &mut Station) -> (u16, u16, u16) {
    let read = station::read(&station.state, &station.store, 0, 0, &mut []);
    let let_go = station::let_go(&mut station.state.clone(), 1);
    let good = frame(62, 0, 0, &[]);
    let frame = station.frame(&good).map(|_| ());
    (
        station::number(&read),
        station::number(&let_go),
        station::number(&frame),
    )
}

#[test]
fn the_busy_station_is_sound() {
    assert_eq!(answers(&mut busy()), (0, 0, 8));
}

fn broken(change: impl FnOnce(&mut State)) -> bool {
    let mut station = busy();
    change(&mut station.state);
    answers(&mut station) == (2, 2, 2)
}

#[test]
fn set_up_is_as_above() {
    assert!(broken(|state| state.channels[1] = Channel(63)));
    assert!(broken(|state| state.channels[1] = Channel(0)));
    let mut station = busy();
    station.state.number_of_channels = 0;
    station.desks.clear();
    assert_eq!(answers(&mut station), (2, 2, 2));
    station.state.number_of_channels = 9;
    station.desks = vec![0; 9 * 8198];
    assert_eq!(answers(&mut station), (2, 2, 2));
    station.desks.pop();
    assert_eq!(answers(&mut station), (2, 2, 1));
    let mut station = busy();
    station.state.number_of_blocks = 4097;
    assert_eq!(answers(&mut station), (1, 2, 1));
}

#[test]
fn blocks_and_places() {
    assert!(broken(|state| state.owners[6] = 4));
    assert!(broken(|state| state.owners[6] = 33));
    assert!(broken(|state| state.owners[6] = 255));
    assert!(broken(|state| state.owners[0] = 0));
    assert!(broken(|state| state.owners[6] = 1));
    assert!(!broken(|state| state.owners[7] = 255));
    assert!(!broken(|state| state.owners.swap(0, 6)));
}

#[test]
fn packets_accepted() {
    assert!(broken(|state| state.slots[0].accepted = 0));
    assert!(broken(|state| state.slots[1].accepted = 3));
    assert!(broken(|state| state.slots[1].accepted = 65_535));
    let mut station = busy();
    station.state.slots[1].accepted = 2;
    assert_eq!(answers(&mut station), (0, 0, 8));
    assert_eq!(station::let_go(&mut station.state, 1), Ok(true));
    assert_eq!(station::let_go(&mut station.state, 2), Ok(false));
}

#[test]
fn fields_of_a_held_slot() {
    assert!(broken(|state| state.slots[1].channel = Channel(2)));
    assert!(broken(
        |state| state.slots[1].application = Application(2016)
    ));
    assert!(!broken(
        |state| state.slots[1].application = Application(2015)
    ));
    assert!(broken(|state| state.slots[0].length = 0));
    assert!(broken(|state| state.slots[0].length = 65_448));
    assert!(broken(|state| state.slots[0].length = u64::MAX));
    assert!(!broken(|state| state.slots[0].length = 8));
    assert!(broken(|state| state.slots[0].last_count = 16_384));
    assert!(!broken(|state| state.slots[0].last_count = 16_383));
}

/// Of "nonzero, a multiple of 8 and gives N" 02, 2/14, left "nonzero" and "gives N".
#[test]
fn lengths_that_are_no_multiple_of_8() {
    for length in [1, 12, 65_433, 65_439] {
        assert!(!broken(|state| state.slots[0].length = length), "{length}");
        assert!(broken(|state| state.slots[1].length = length), "{length}");
    }
    for length in [65_441, 65_447, 130_953, 130_959] {
        assert!(broken(|state| state.slots[0].length = length), "{length}");
        assert!(!broken(|state| state.slots[1].length = length), "{length}");
    }
    for length in [130_961, u64::MAX - 6, u64::MAX] {
        assert!(broken(|state| state.slots[0].length = length), "{length}");
        assert!(broken(|state| state.slots[1].length = length), "{length}");
    }
    for (accepted, was_complete) in [(1, false), (2, true)] {
        let mut station = busy();
        station.state.slots[1].length = 65_441;
        station.state.slots[1].accepted = accepted;
        assert_eq!(answers(&mut station), (0, 0, 8));
        assert_eq!(station::let_go(&mut station.state, 1), Ok(was_complete));
    }
}

#[test]
fn no_two_incomplete_slots_share_channel_and_application() {
    assert!(broken(|state| state.slots[2].channel = Channel(0)));
    assert!(!broken(|state| {
        state.slots[2].channel = Channel(0);
        state.slots[2].accepted = 2;
    }));
}

#[test]
fn a_free_slot_is_all_zero() {
    assert!(broken(|state| state.slots[3].channel = Channel(3)));
    assert!(broken(|state| state.slots[31].application = Application(1)));
    assert!(broken(|state| state.slots[3].length = 8));
    assert!(broken(|state| state.slots[3].last_count = 1));
}

#[test]
fn desk_positions() {
    assert!(broken(|state| state.desks[1].held = 8198));
    assert!(broken(|state| state.desks[1].last_counter = 1 << 24));
    assert!(broken(|state| state.desks[0].seen = false));
    assert!(broken(|state| state.desks[1].seen = false));
    assert!(!broken(|state| state.desks[2].held = 9999));
    assert!(!broken(|state| state.channels[2] = Channel(0)));
}

#[test]
fn desk_octets_are_judged_by_frames_alone() {
    let changes: [fn(&mut Station); 6] = [
        |station| station.desks[884] = 1,
        |station| station.desks[8197] = 1,
        |station| station.desks[2 * 8198 - 1] = 1,
        |station| station.desks[0] = 0x20,
        |station| station.desks[4] = 0x01,
        |station| station.state.desks[0].held = 883,
    ];
    for (number, change) in changes.into_iter().enumerate() {
        let mut station = busy();
        change(&mut station);
        let expected = if number == 5 { (0, 0, 8) } else { (0, 0, 2) };
        assert_eq!(answers(&mut station), expected, "change {number}");
    }
}

#[test]
fn a_held_packet_is_longer_than_what_is_held() {
    for (length, frame) in [(877, 2), (878, 8)] {
        let mut station = busy();
        station.desks[4..6].copy_from_slice(&u16::to_be_bytes(length));
        assert_eq!(answers(&mut station), (0, 0, frame));
    }
}

#[test]
fn fewer_than_six_held_octets_may_be_anything() {
    let mut station = busy();
    station.desks[..884].fill(0);
    station.desks[..5].fill(0xff);
    station.state.desks[0].held = 5;
    assert_eq!(answers(&mut station), (0, 0, 8));
    assert_eq!(
        station::read(&station.state, &[], 0, 0, &mut []),
        Err(Refusal::Memory)
    );
}
