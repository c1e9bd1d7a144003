//! 01's table of answers, in the order of its numbers.

use second::makers::make;
use second::model::frame::Channel;
use second::model::station::{self, Refusal, State};

use crate::memory::{frame, Station};

fn set_up(channels: &[u8], desks: usize, store: usize) -> Result<(), Refusal> {
    let (mut desks, store) = (vec![9; desks], vec![9; store]);
    let (state, answer) = station::set_up(7, channels, &mut desks, &store);
    if answer.is_err() {
        assert!(state == State::all_zero() && desks.iter().all(|&octet| octet == 9));
    } else {
        assert!(desks.iter().all(|&octet| octet == 0));
    }
    answer
}

#[test]
fn set_up_gives_10_before_1() {
    assert_eq!(set_up(&[62], 8198, 8190), Ok(()));
    assert_eq!(set_up(&[], 0, 8190), Err(Refusal::SetUp));
    assert_eq!(set_up(&[63], 0, 0), Err(Refusal::SetUp));
    assert_eq!(set_up(&[1, 2, 1], 3 * 8198, 8190), Err(Refusal::SetUp));
    assert_eq!(
        set_up(&[0, 1, 2, 3, 4, 5, 6, 7, 8], 9 * 8198, 8190),
        Err(Refusal::SetUp)
    );
    assert_eq!(set_up(&[0, 1, 2, 3, 4, 5, 6, 7], 8 * 8198, 8190), Ok(()));
    assert_eq!(set_up(&[0], 8197, 8190), Err(Refusal::Memory));
    assert_eq!(set_up(&[0], 8198, 0), Err(Refusal::Memory));
    assert_eq!(set_up(&[0], 8198, 8191), Err(Refusal::Memory));
    assert_eq!(set_up(&[0], 8198, 4096 * 8190), Ok(()));
    assert_eq!(set_up(&[0], 8198, 4097 * 8190), Err(Refusal::Memory));
}

#[test]
fn the_all_zero_state() {
    let mut state = State::all_zero();
    let mut list = vec![0; 900];
    let answer = station::frame(&mut state, &mut [], &mut [], &mut list, &[]);
    assert_eq!(answer, Err(Refusal::Memory));
    assert_eq!(
        station::read(&state, &[], 0, 0, &mut []),
        Err(Refusal::Memory)
    );
    assert_eq!(station::let_go(&mut state, 0), Err(Refusal::NotSound));
    assert_eq!(station::let_go(&mut state, 99), Err(Refusal::NotSound));
}

#[test]
fn the_memory_of_a_frame() {
    let good = frame(0, 0, 0, &make::fill(884));
    let mut station = Station::new(&[0, 1], 2);
    station.list = vec![0; 899];
    assert_eq!(station.frame(&good), Err(Refusal::Memory));
    station.list = vec![0; 1200];
    assert_eq!(station.frame(&good), Ok(vec![]));
    station.desks.push(0);
    assert_eq!(station.frame(&good), Err(Refusal::Memory));
    station.desks.pop();
    station.store.truncate(8190);
    assert_eq!(station.frame(&good), Err(Refusal::Memory));
}

#[test]
fn the_frame_itself() {
    let mut station = Station::new(&[0, 5], 2);
    let fill = make::fill(884);
    let good = frame(0, 0, 0, &fill);
    assert_eq!(station.frame(&good[..1023]), Err(Refusal::FrameSize));
    assert_eq!(
        station.frame(&[&good[..], &[0]].concat()),
        Err(Refusal::FrameSize)
    );
    assert_eq!(station.frame(&[0; 1024]), Err(Refusal::Marker));
    let other = |version, spacecraft, channel, pointer| {
        make::frame_of_version(version, spacecraft, Channel(channel), 0, pointer, &fill)
    };
    assert_eq!(station.frame(&other(0, 2, 63, 884)), Err(Refusal::Version));
    assert_eq!(
        station.frame(&other(1, 2, 63, 884)),
        Err(Refusal::OtherSpacecraft)
    );
    assert_eq!(
        station.frame(&other(1, 1, 63, 884)),
        Err(Refusal::FillChannel)
    );
    assert_eq!(
        station.frame(&other(1, 1, 62, 884)),
        Err(Refusal::NotWatched)
    );
    assert_eq!(station.frame(&other(1, 1, 5, 884)), Err(Refusal::Pointer));
    assert_eq!(station.frame(&other(1, 1, 5, 2046)), Err(Refusal::Pointer));
    assert!(station.state.desks.iter().all(|desk| !desk.seen));
    assert_eq!(station.frame(&other(1, 1, 5, 2047)), Ok(vec![]));
    assert_eq!(station.frame(&good), Ok(vec![]));
}

#[test]
fn slots_that_are_not_held() {
    let mut station = Station::new(&[0], 2);
    for slot in [0, 31, 32, 255, 65_535] {
        assert_eq!(
            station::let_go(&mut station.state, slot),
            Err(Refusal::NoHeldSlot)
        );
        let read = station::read(&station.state, &station.store, slot, 0, &mut []);
        assert_eq!(read, Err(Refusal::NoHeldSlot));
    }
}
