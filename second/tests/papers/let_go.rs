//! 02, 3/14: "Make them one operation that frees any held file and reports whether it was complete."

use second::makers::make;
use second::model::frame::Channel;
use second::model::packet::Flags;
use second::model::station::{self, Refusal, State};

use crate::memory::{file, packet, Station};

fn let_go(station: &mut Station, slot: usize) -> Result<bool, Refusal> {
    station::let_go(&mut station.state, slot)
}

/// Slot 0 has accepted the first packets of a file of application 5 on channel 0.
fn with_packets(need: usize, accepted: usize) -> Station {
    let mut station = Station::new(&[0, 1], 7);
    let events = station.packets(0, &file(0, 5, need).packets(16_382)[..accepted]);
    assert_eq!(events[0], [10, 5, 0]);
    assert_eq!(events.last() == Some(&[12, 5, 0]), need == accepted);
    station
}

#[test]
fn any_held_file_is_freed_and_reported_as_it_was() {
    for need in 1..=4 {
        for accepted in 1..=need {
            let mut station = with_packets(need, accepted);
            let (desks, store) = (station.desks.clone(), station.store.clone());
            let fresh = State {
                desks: station.state.desks.clone(),
                ..Station::new(&[0, 1], 7).state
            };
            assert_eq!(let_go(&mut station, 0), Ok(accepted == need));
            assert!(station.state == fresh, "{need} {accepted}");
            assert!(station.desks == desks && station.store == store);
            let all = file(1, 6, 7).packets(0)[0].clone();
            assert_eq!(station.packets(1, &[all]), [[10, 6, 0]]);
            assert_eq!(station.state.blocks_of(0), [0, 1, 2, 3, 4, 5, 6]);
        }
    }
}

#[test]
fn one_bit_more_than_a_block_has_is_not_complete_after_one_packet() {
    for (length, flags, was_complete) in
        [(65_440, Flags::Whole, true), (65_441, Flags::First, false)]
    {
        let mut station = Station::new(&[0], 2);
        let mut data = [&[0, 0], &u64::to_be_bytes(length)[..]].concat();
        data.resize(8190, 0);
        station.packets(0, &[packet(5, flags, 0, &data)]);
        assert_eq!(let_go(&mut station, 0), Ok(was_complete), "{length}");
    }
}

/// "12 stays for reads"
#[test]
fn twelve_is_for_reads() {
    let mut station = with_packets(3, 2);
    let read = station::read(&station.state, &station.store, 0, 0, &mut []);
    assert_eq!(read, Err(Refusal::Incomplete));
    assert_eq!(let_go(&mut station, 0), Ok(false));
    let read = station::read(&station.state, &station.store, 0, 0, &mut []);
    assert_eq!(read, Err(Refusal::NoHeldSlot));
}

/// "11 stays"
#[test]
fn eleven_is_for_slots_that_are_not_held() {
    for accepted in [2, 3] {
        let mut station = with_packets(3, accepted);
        let before = station.state.clone();
        for slot in [1, 31, 32, 33, 256, 65_535, usize::MAX] {
            assert_eq!(let_go(&mut station, slot), Err(Refusal::NoHeldSlot));
            assert!(station.state == before, "{slot}");
        }
        assert_eq!(let_go(&mut station, 0), Ok(accepted == 3));
        assert_eq!(let_go(&mut station, 0), Err(Refusal::NoHeldSlot));
    }
}

/// "The lowest number that applies is given", and "Every number but 0 carries no other result and
/// changes nothing".
#[test]
fn a_state_that_is_not_sound_comes_before_the_slot() {
    for accepted in [2, 3] {
        let mut station = with_packets(3, accepted);
        station.state.slots[7].last_count = 1;
        let before = station.state.clone();
        for slot in [0, 1, 7, 32, 65_535] {
            assert_eq!(let_go(&mut station, slot), Err(Refusal::NotSound));
            assert!(station.state == before, "{slot}");
        }
    }
}

#[test]
fn packets_that_come_too_late_give_5_and_a_first_one_opens() {
    let mut station = Station::new(&[0], 7);
    let packets = file(0, 5, 4).packets(0);
    let whole = file(0, 6, 1).packets(0);
    assert_eq!(station.packets(0, &whole), [[10, 6, 0], [12, 6, 0]]);
    assert_eq!(station.packets(0, &packets[..2]), [[10, 5, 1], [11, 5, 1]]);
    assert_eq!(station.packets(0, &whole), [[10, 6, 2], [12, 6, 2]]);
    assert_eq!(let_go(&mut station, 1), Ok(false));
    assert_eq!(station.packets(0, &packets[2..]), [[5, 5, 0], [5, 5, 0]]);
    assert_eq!(station.packets(0, &packets[..1]), [[10, 5, 1]]);
    assert_eq!(station.state.blocks_of(1), [1, 2, 3, 4]);
}

#[test]
fn of_two_files_of_a_pair_each_goes_alone() {
    for slots in [[0, 1], [1, 0]] {
        let mut station = with_packets(2, 2);
        let next = file(0, 5, 3).packets(0)[0].clone();
        assert_eq!(station.packets(0, &[next]), [[10, 5, 1]]);
        for slot in slots {
            let other = station.state.slots[1 - slot].clone();
            let blocks = station.state.blocks_of(1 - slot);
            assert_eq!(let_go(&mut station, slot), Ok(slot == 0));
            assert_eq!(station.state.slots[1 - slot], other);
            assert_eq!(station.state.blocks_of(1 - slot), blocks);
        }
        assert_eq!(station.state.free_blocks().len(), 7);
    }
}

#[test]
fn a_packet_half_on_its_desk_goes_on() {
    let mut station = with_packets(2, 1);
    let last = file(0, 5, 2).packets(16_382)[1].clone();
    let frames = make::frames(1, Channel(0), station.next_counter(0), &[last]);
    assert_eq!(station.frame(&frames[0]), Ok(vec![]));
    assert_eq!(station.held(0), 884);
    assert_eq!(let_go(&mut station, 0), Ok(false));
    assert_eq!(station.held(0), 884);
    assert_eq!(station.frames(&frames[1..]), [[5, 5, 0]]);
}
