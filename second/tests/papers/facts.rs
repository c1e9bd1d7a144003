//! 02, 5/14: the facts of a complete file, by its slot.

use second::makers::make;
use second::makers::make_catalogue::facts;
use second::model::frame::Channel;
use second::model::packet::Application;
use second::model::station::{self, Facts, Refusal};

use crate::memory::{file, Station};

fn asked(station: &Station, slot: usize) -> Result<Facts, Refusal> {
    station::facts(&station.state, &station.store, slot)
}

#[test]
fn a_complete_file_tells_its_facts() {
    for need in 1..=3 {
        let mut station = Station::new(&[3, 1], 7);
        let sent = make::File {
            counter: 0x1234,
            ..file(1, 5, need)
        }
        .with_filler(3);
        let packets = sent.packets(0);
        for packet in &packets[..need - 1] {
            station.packets(1, std::slice::from_ref(packet));
            assert_eq!(asked(&station, 0), Err(Refusal::Incomplete));
        }
        station.packets(1, &packets[need - 1..]);
        let expected = facts(1, 5, 0x1234, sent.bit_length);
        assert_eq!(asked(&station, 0), Ok(expected));
        assert_eq!(station::let_go(&mut station.state, 0), Ok(true));
        assert_eq!(asked(&station, 0), Err(Refusal::NoHeldSlot));
    }
}

#[test]
fn the_counter_is_what_the_store_holds() {
    let mut station = Station::new(&[0], 3);
    for counter in [0, 65_535] {
        let sent = make::File::of(Channel(0), Application(counter / 40), counter, &[1, 2]);
        station.packets(0, &sent.packets(0));
    }
    assert_eq!(asked(&station, 0), Ok(facts(0, 0, 0, 16)));
    assert_eq!(asked(&station, 1), Ok(facts(0, 1638, 65_535, 16)));
    station.store[8190] = 1;
    assert_eq!(asked(&station, 1), Ok(facts(0, 1638, 511, 16)));
    station.store[8191] = 2;
    assert_eq!(asked(&station, 1), Ok(facts(0, 1638, 258, 16)));
    assert_eq!(asked(&station, 0), Ok(facts(0, 0, 0, 16)));
}

#[test]
fn refusals_are_those_of_a_read_and_the_lowest_is_given() {
    let mut station = Station::new(&[0], 3);
    station.packets(0, &file(0, 5, 2).packets(0)[..1]);
    for slot in [1, 31, 32, 33, 256, usize::MAX] {
        assert_eq!(asked(&station, slot), Err(Refusal::NoHeldSlot));
    }
    assert_eq!(asked(&station, 0), Err(Refusal::Incomplete));
    station.state.slots[7].last_count = 1;
    for slot in [0, 1, 7, 32] {
        assert_eq!(asked(&station, slot), Err(Refusal::NotSound));
    }
    for size in [0, 2 * 8190, 3 * 8190 - 1, 3 * 8190 + 1, 4 * 8190] {
        let store = vec![0; size];
        for slot in [0, 1, 32] {
            let answer = station::facts(&station.state, &store, slot);
            assert_eq!(answer, Err(Refusal::Memory));
        }
    }
}

#[test]
fn two_files_of_a_pair_have_each_their_own() {
    let mut station = Station::new(&[0], 5);
    for (counter, octets) in [(7, 100), (8, 200)] {
        let sent = make::File::of(Channel(0), Application(9), counter, &vec![1; octets]);
        station.packets(0, &sent.packets(0));
    }
    assert_eq!(asked(&station, 0), Ok(facts(0, 9, 7, 800)));
    assert_eq!(asked(&station, 1), Ok(facts(0, 9, 8, 1600)));
    station.packets(0, &file(0, 9, 3).packets(0)[..1]);
    assert_eq!(asked(&station, 2), Err(Refusal::Incomplete));
    assert_eq!(asked(&station, 1), Ok(facts(0, 9, 8, 1600)));
}
