//! The numbers of "What the station says", in each of their forms; 2 has a module of its own.

use super::{complete, half, whole, Row};
use crate::makers::make;
use crate::makers::script::{Field, Script};
use crate::model::frame::{Channel, SIZE};
use crate::model::noise;
use crate::model::station::DESK_SIZE;
use crate::model::transport::BLOCK_SIZE;

pub const CASES: &[Row] = &[
    (
        "answer-00-set-up",
        "set-ups that are good: 1 to 8 channels, channel 62, spacecraft 0 and 255, 1 and 65 blocks",
        good_set_ups,
    ),
    (
        "answer-00-set-up-memory",
        "set-up makes all desk octets lent zero and leaves the others and the store",
        set_up_memory,
    ),
    (
        "answer-01-frame",
        "1 for a frame: desks, store and event list, each on both sides",
        memory_of_a_frame,
    ),
    (
        "answer-01-read",
        "1 for a read: the store; desks are not lent, so not judged",
        memory_of_a_read,
    ),
    (
        "answer-01-set-up",
        "1 at set-up: desks not 8,198 octets a channel, store not whole blocks",
        memory_of_a_set_up,
    ),
    (
        "answer-01-wild",
        "1 goes by the numbers of channels and blocks in the state as handed in, before 2",
        wild_numbers,
    ),
    (
        "answer-03",
        "3: frames of 0, 1, 4, 1,023 and 1,025 octets",
        frame_sizes,
    ),
    ("answer-04", "4: each octet of the marker wrong", markers),
    ("answer-05", "5: versions 0, 2 and 3", versions),
    (
        "answer-06",
        "6: other spacecraft, a fill frame of another too",
        spacecraft,
    ),
    (
        "answer-07",
        "7: channel 63, which no set-up can name",
        fill_frames,
    ),
    (
        "answer-08",
        "8: channels that are not watched; one that stands past the count is not",
        not_watched,
    ),
    (
        "answer-09",
        "9: pointers 884 to 2046; 883 and 2047 are good; a refused frame's counter is not recorded",
        pointers,
    ),
    (
        "answer-10",
        "10: no channel, over 8, 63 and above, a channel twice",
        bad_set_ups,
    ),
    (
        "answer-10-before-1",
        "10 comes before 1 at set-up",
        ten_before_one,
    ),
    (
        "answer-10-state",
        "after a refused set-up the state is all zero, which isn't sound",
        refused_state,
    ),
    (
        "answer-11",
        "11: slots 32 and above, and slots that are not held",
        no_such_slot,
    ),
    (
        "answer-12",
        "12: reads of an incomplete file, which can be let go; 02, 3/14: \"12 stays for reads\"",
        incomplete,
    ),
    (
        "answer-14",
        "14: reads that pass the end, by one octet, by their offset, by an offset near 2^64",
        past_the_end,
    ),
    (
        "answer-order-calls",
        "the lowest number is given: read 1, 2, 11, 12, 14; letting a file go 2, 11",
        order_of_calls,
    ),
    (
        "answer-order-frame",
        "the lowest number is given: frames to which two of 1 to 9 apply",
        order_of_a_frame,
    ),
];

fn good_set_ups(script: &mut Script) {
    for (spacecraft, channels, blocks) in [
        (0, &[0][..], 1),
        (255, &[62][..], 65),
        (1, &[3, 0][..], 2),
        (1, &[7, 6, 5, 4, 3, 2, 1, 0][..], 7),
        (195, &[0, 9, 18, 27, 36, 45, 54, 62][..], 64),
    ] {
        script.lend(DESK_SIZE * channels.len(), BLOCK_SIZE * blocks);
        script.set_up(spacecraft, channels);
        script.no_frame();
        script.show();
    }
}

fn set_up_memory(script: &mut Script) {
    let places = [0, 8197, 8198, 16_395, 16_396];
    script.lend(9 * DESK_SIZE, 3 * BLOCK_SIZE);
    for place in places {
        script.poke_desks(place, 0xa5);
    }
    for place in [0, 8189, 8190, 16_379, 16_380] {
        script.poke_store(place, 0x5a);
    }
    script.set_up(1, &[0, 1]);
    script.show();
    script.fresh(&[4, 5], 2);
    script.show();
    script.lend(9 * DESK_SIZE, 3 * BLOCK_SIZE);
    script.show();
    script.poke_desks(16_396, 0);
}

fn memory_of_a_set_up(script: &mut Script) {
    let (desk, block) = (DESK_SIZE, BLOCK_SIZE);
    for (desks, store) in [
        (2 * desk - 1, block),
        (2 * desk + 1, block),
        (desk, block),
        (3 * desk, block),
        (0, block),
        (2 * desk, 0),
        (2 * desk, 1),
        (2 * desk, block - 1),
        (2 * desk, block + 1),
        (2 * desk, 65 * block + 1),
        (2 * desk, 65 * block - 1),
        (0, 0),
        (2 * desk, block),
    ] {
        script.lend(desks, store);
        script.set_up(1, &[0, 1]);
    }
    script.show();
}

/// A good frame of channel 0 with nothing but fill.
fn fill_frame(counter: u32) -> Vec<u8> {
    make::frame(1, Channel(0), counter, 0, &make::fill(884))
}

fn memory_of_a_frame(script: &mut Script) {
    let (desk, block) = (DESK_SIZE, BLOCK_SIZE);
    script.fresh(&[0, 1], 2);
    for (desks, store) in [
        (2 * desk - 1, 2 * block),
        (2 * desk + 1, 2 * block),
        (desk, 2 * block),
        (0, 2 * block),
        (2 * desk, 2 * block - 1),
        (2 * desk, 2 * block + 1),
        (2 * desk, block),
        (2 * desk, 3 * block),
        (2 * desk, 0),
    ] {
        script.lend(desks, store);
        script.no_frame();
    }
    script.lend(2 * desk, 2 * block);
    for event_numbers in [0, 1, 899] {
        script.unit(event_numbers, &[]);
    }
    script.unit(899, &fill_frame(7));
    script.unit(900, &fill_frame(0));
    script.unit(901, &[]);
    script.unit(1200, &[]);
    script.show();
}

fn memory_of_a_read(script: &mut Script) {
    let block = BLOCK_SIZE;
    script.fresh(&[0, 1], 2);
    script.held(&complete(0, 1, 7, 1));
    for store in [0, 1, block, 2 * block - 1, 2 * block + 1, 3 * block] {
        script.lend(2 * DESK_SIZE, store);
        script.read(0, 0, 0);
    }
    script.lend(0, 2 * block);
    script.read(0, 0, 0);
    script.lend(2 * DESK_SIZE, 2 * block);
    script.poke_desks(0, 1);
    script.read(0, 0, 10);
    script.no_frame();
    script.lend(0, 0);
    script.let_go(0);
    script.set_up(1, &[]);
    script.read(0, 0, 0);
    script.lend(0, block);
    script.read(0, 0, 0);
}

fn wild_numbers(script: &mut Script) {
    for (channels, lent) in [(9, 9), (9, 2), (0, 0), (0, 2), (255, 9)] {
        script.fresh(&[0, 1], 2);
        script.poke(Field::NumberOfChannels, 0, channels);
        script.lend(lent * DESK_SIZE, 2 * BLOCK_SIZE);
        script.no_frame();
        script.read(0, 0, 0);
        script.let_go(0);
    }
    for (blocks, lent) in [
        (0, 0),
        (0, 2),
        (3, 2),
        (3, 3),
        (1, 1),
        (4096, 65),
        (4097, 65),
        (65_535, 65),
    ] {
        script.fresh(&[0, 1], 2);
        script.poke(Field::NumberOfBlocks, 0, blocks);
        script.lend(2 * DESK_SIZE, lent * BLOCK_SIZE);
        script.no_frame();
        script.read(0, 0, 0);
        script.let_go(0);
    }
}

fn frame_sizes(script: &mut Script) {
    script.station();
    let good = fill_frame(0);
    let long = good.repeat(2);
    for octets in [0, 1, 4, 1023, 1025] {
        script.frame(&long[..octets]);
    }
    script.frame(&good);
    script.show();
}

fn markers(script: &mut Script) {
    script.station();
    for place in 0..4 {
        let mut frame = fill_frame(0);
        frame[place] ^= 1 << (7 - place);
        script.frame(&frame);
    }
    script.frame(&[0; SIZE]);
    script.frame(&fill_frame(0));
    script.show();
}

fn versions(script: &mut Script) {
    script.station();
    for version in [0, 2, 3, 1] {
        let zone = make::fill(884);
        script.frame(&make::frame_of_version(version, 1, Channel(0), 0, 0, &zone));
    }
    script.show();
}

fn spacecraft(script: &mut Script) {
    script.station();
    for (spacecraft, channel) in [(0, 0), (2, 0), (129, 0), (255, 0), (0, 63), (2, 62), (1, 0)] {
        let zone = make::fill(884);
        script.frame(&make::frame(spacecraft, Channel(channel), 0, 0, &zone));
    }
    script.show();
}

/// 000's fill frame: channel 63, counter 0, data zone all zero.
fn fill_frames(script: &mut Script) {
    script.station();
    script.frame(&make::frame(1, Channel(63), 0, 0, &[]));
    script.frame(&make::frame(1, Channel(63), 5, 900, &make::fill(884)));
    script.show();
    script.lend(DESK_SIZE, BLOCK_SIZE);
    script.set_up(1, &[63]);
    script.frame(&make::frame(1, Channel(63), 0, 0, &[]));
}

fn not_watched(script: &mut Script) {
    script.fresh(&[5, 62], 2);
    script.poke(Field::Channel, 2, 6);
    for channel in [4, 6, 61, 62] {
        let zone = make::fill(884);
        script.frame(&make::frame(1, Channel(channel), 0, 0, &zone));
    }
    script.show();
}

fn pointers(script: &mut Script) {
    script.station();
    script.zone(2, 883, &[0; 884]);
    for pointer in [884, 1024, 2046] {
        script.zone(2, pointer, &make::fill(884));
    }
    script.show();
    script.next_is(2, 1);
    script.zone(2, 2047, &[]);
    script.zone(2, 1500, &[]);
    script.zone(2, 0, &make::fill(884));
    script.show();
}

fn bad_set_ups(script: &mut Script) {
    for channels in [
        &[][..],
        &[0, 1, 2, 3, 4, 5, 6, 7, 8][..],
        &[0; 64][..],
        &[63][..],
        &[64][..],
        &[128][..],
        &[255][..],
        &[0, 63][..],
        &[1, 1][..],
        &[1, 2, 1][..],
        &[0, 1, 2, 3, 4, 5, 6, 0][..],
        &[0, 1, 2, 3, 4, 5, 6, 6][..],
    ] {
        script.lend(DESK_SIZE * channels.len(), 2 * BLOCK_SIZE);
        script.set_up(1, channels);
    }
    script.show();
}

fn ten_before_one(script: &mut Script) {
    for (desks, store) in [(0, 0), (DESK_SIZE, 1), (1, BLOCK_SIZE)] {
        script.lend(desks, store);
        script.set_up(1, &[63]);
        script.set_up(1, &[]);
        script.set_up(1, &[4, 4]);
        script.set_up(1, &[4]);
    }
}

fn refused_state(script: &mut Script) {
    script.station();
    script.held(&complete(0, 0, 1, 0));
    script.set_up(1, &[0, 0]);
    script.poke_desks(3, 9);
    script.show();
    script.no_frame();
    script.read(0, 0, 0);
    script.let_go(0);
    script.let_go(32);
    script.lend(0, 0);
    script.no_frame();
    script.read(0, 0, 0);
    script.station();
    script.show();
}

fn no_such_slot(script: &mut Script) {
    script.station();
    script.held(&complete(31, 0, 1, 0));
    script.held(&half(1, 0, 1));
    for slot in [0, 2, 30, 32, 33, 255, 256, 287, 65_535] {
        script.read(slot, 0, 0);
        script.let_go(slot);
    }
    script.show();
}

fn incomplete(script: &mut Script) {
    script.station();
    script.held(&half(2, 0, 1));
    script.read(2, 0, 0);
    script.read(2, 1, 0);
    script.read(2, 8180, 0);
    script.show();
    script.let_go(2);
    script.show();
    script.read(2, 0, 0);
    script.let_go(2);
}

fn past_the_end(script: &mut Script) {
    script.station();
    script.packets(1, &[whole(9, 20)]);
    for (octets, offset) in [
        (20, 0),
        (21, 0),
        (1, 19),
        (2, 19),
        (0, 20),
        (1, 20),
        (0, 21),
        (0, 8180),
    ] {
        script.read(0, octets, offset);
    }
    for (octets, offset) in [
        (1, u64::MAX),
        (2, u64::MAX),
        (16_384, u64::MAX - 16_383),
        (0, 1 << 63),
    ] {
        script.read(0, octets, offset);
    }
    for (octets, offset) in [
        (1, 1 << 32),
        (1, (1 << 32) + 1),
        (0, 65_536),
        (1, u64::MAX - 9),
    ] {
        script.read(0, octets, offset);
    }
}

fn order_of_calls(script: &mut Script) {
    script.station();
    script.held(&half(1, 0, 1));
    script.held(&complete(2, 0, 1, 6));
    script.read(1, 16_000, 9_000_000);
    script.read(3, 16_000, 9_000_000);
    script.poke(Field::SlotCount, 2, 16_384);
    for slot in [1, 2, 3, 32] {
        script.read(slot, 16_000, 9_000_000);
        script.let_go(slot);
    }
    script.lend(4 * DESK_SIZE, 6 * BLOCK_SIZE);
    script.read(3, 1, 9_000_000);
    script.let_go(3);
    script.lend(4 * DESK_SIZE, 7 * BLOCK_SIZE);
    script.poke(Field::SlotCount, 2, 0);
    script.read(2, 16_000, 9_000_000);
    for slot in [3, 32] {
        script.let_go(slot);
    }
    script.show();
}

fn order_of_a_frame(script: &mut Script) {
    let frame = |version, spacecraft, channel, pointer| {
        make::frame_of_version(version, spacecraft, Channel(channel), 0, pointer, &[])
    };
    script.fresh(&[0, 5], 2);
    script.poke(Field::Counter, 0, 1);
    script.unit(899, &[]);
    script.unit(900, &[]);
    script.poke(Field::Counter, 0, 0);
    script.frame(&[0; 5]);
    let mut unmarked = frame(0, 2, 63, 884);
    unmarked[0] = 0;
    script.frame(&unmarked[..1023]);
    script.frame(&unmarked);
    script.frame(&frame(0, 2, 63, 884));
    script.frame(&frame(1, 2, 63, 884));
    script.frame(&frame(1, 2, 62, 884));
    script.frame(&frame(1, 1, 63, 884));
    script.frame(&frame(1, 1, 62, 884));
    script.frame(&frame(1, 1, 5, 884));
    let noise = noise::sequence(SIZE);
    script.frame(&noise);
    script.show();
}
