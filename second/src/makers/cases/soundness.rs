//! "A state is sound when": each clause on both sides of its line, by pokes.

use super::{bits, complete, half, Row};
use crate::makers::make;
use crate::makers::script::{Field, Held, Script};
use crate::model::station::DESK_SIZE;
use crate::model::transport::BLOCK_SIZE;

pub const CASES: &[Row] = &[
    ("answer-02-blocks", "2: \"each block is free or stands at one place of one held slot\"; places 0 to N-1 once each", blocks),
    ("answer-02-desk-octets", "2, of a frame alone: zeros after the held octets; six or more read as a good header of a longer packet", desk_octets),
    ("answer-02-desk-positions", "2: at most 8,197 octets held, counter below 2^24, counter 0 and nothing held where no frame was seen", desk_positions),
    ("answer-02-fields", "2: channel watched, application at most 2015, length nonzero and gives N; count below 16,384", fields),
    ("answer-02-free-slots", "2: \"a free slot is all zero\"", free_slots),
    ("answer-02-lengths", "2: lengths that are no multiple of 8: up to 65,440 N = 1, up to 130,960 N = 2, 2^64 - 1 far beyond; of 65,441 bits a file is complete after two packets", lengths),
    ("answer-02-pairs", "2: \"no two incomplete slots share channel and application\"; complete ones may", pairs),
    ("answer-02-past-the-counts", "entries past the numbers of channels and blocks are not judged", past_the_counts),
    ("answer-02-set-up", "2: channels 0 to 62, distinct, 1 to 8 of them", set_up),
    ("answer-02-accepted", "2: \"has accepted p packets, 1 to N\"", accepted),
    ("answer-02-wide-lengths", "2: bit lengths whose need is far beyond the blocks", wide_lengths),
];

/// Channels 0 and 3, seven blocks. Slot 0 is complete in block 0; slots 1 and 2 are incomplete
/// of need 2, on channels 0 and 3, in blocks 1 to 4; 7 octets of a fill packet of 17 are held on
/// the desk of channel 0; a frame of channel 3 was seen.
fn busy(script: &mut Script) {
    script.fresh(&[0, 3], 7);
    script.held(&complete(0, 0, 5, 0));
    for (slot, channel) in [(1, 0), (2, 3)] {
        let blocks = vec![2 * slot - 1, 2 * slot];
        script.held(&Held {
            blocks,
            ..half(slot, channel, 5)
        });
    }
    script.on_desk(0, &make::fill(17)[..7]);
    script.poke(Field::Seen, 1, 1);
}

/// Calls that change nothing: 11, 11 and 3 of a sound state, 2 of another.
fn judge(script: &mut Script) {
    script.read(31, 0, 0);
    script.let_go(31);
    script.no_frame();
}

/// Judges the state with one field changed, then puts the field back.
fn changed(script: &mut Script, field: Field, index: u16, numbers: &[u64], back: u64) {
    for &number in numbers {
        script.poke(field, index, number);
        judge(script);
    }
    script.poke(field, index, back);
    judge(script);
}

fn set_up(script: &mut Script) {
    busy(script);
    judge(script);
    changed(script, Field::Channel, 1, &[63, 64, 255, 0, 62, 4], 3);
    changed(script, Field::Channel, 0, &[3, 63], 0);
    for (number, lent) in [(0, 0), (1, 1), (3, 3), (8, 8), (9, 9)] {
        script.poke(Field::NumberOfChannels, 0, number);
        script.lend(lent * DESK_SIZE, 7 * BLOCK_SIZE);
        judge(script);
    }
    script.show();
    script.fresh(&[0, 1, 2, 3, 4, 5, 6, 7], 1);
    changed(script, Field::Channel, 7, &[0, 6, 63, 8], 7);
    script.fresh(&[0], 1);
    script.poke(Field::NumberOfChannels, 0, 2);
    script.lend(2 * DESK_SIZE, BLOCK_SIZE);
    judge(script);
    script.poke(Field::Channel, 1, 1);
    judge(script);
}

fn blocks(script: &mut Script) {
    busy(script);
    changed(script, Field::Owner, 6, &[4, 32, 33, 64, 255, 1, 2, 3], 0);
    changed(script, Field::Owner, 0, &[0, 2, 3, 4], 1);
    changed(script, Field::Owner, 1, &[0, 1, 3], 2);
    script.poke(Field::Owner, 1, 0);
    script.poke(Field::Owner, 6, 2);
    judge(script);
    script.show();
    script.poke(Field::NumberOfBlocks, 0, 6);
    script.lend(2 * DESK_SIZE, 6 * BLOCK_SIZE);
    judge(script);
    script.poke(Field::Owner, 0, 0);
    script.poke(Field::SlotAccepted, 0, 0);
    script.poke(Field::SlotApplication, 0, 0);
    script.poke(Field::SlotLength, 0, 0);
    script.poke(Field::NumberOfBlocks, 0, 7);
    script.lend(2 * DESK_SIZE, 7 * BLOCK_SIZE);
    judge(script);
    script.show();
}

fn accepted(script: &mut Script) {
    busy(script);
    changed(script, Field::SlotAccepted, 0, &[0, 2, 65_535], 1);
    changed(
        script,
        Field::SlotAccepted,
        1,
        &[0, 2, 3, 256, 257, 65_535],
        1,
    );
    script.poke(Field::SlotAccepted, 1, 2);
    script.read(1, 0, 8181);
    script.let_go(1);
    script.show();
    script.read(2, 0, 8181);
    script.let_go(2);
    script.show();
}

fn fields(script: &mut Script) {
    busy(script);
    changed(script, Field::SlotChannel, 1, &[1, 2, 4, 63, 255], 0);
    changed(script, Field::SlotChannel, 0, &[1, 3], 0);
    changed(
        script,
        Field::SlotApplication,
        1,
        &[2016, 2047, 2048, 65_535, 2015, 0],
        5,
    );
    changed(script, Field::SlotApplication, 0, &[2016, 2047, 2015], 5);
    let (one, two) = (bits(1, 8190), bits(2, 1));
    let lengths = [0, 1, 4, 7, 9, 12, one + 1, one + 7, two, 8, 16, one];
    changed(script, Field::SlotLength, 0, &lengths, 80);
    let lengths = [0, one, two - 1, two + 1, bits(3, 1), bits(2, 8190)];
    changed(script, Field::SlotLength, 1, &lengths, two);
    changed(
        script,
        Field::SlotCount,
        0,
        &[16_384, 32_768, 65_535, 16_383],
        0,
    );
    changed(script, Field::SlotCount, 2, &[16_384, 65_535, 16_383], 0);
    script.show();
}

fn lengths(script: &mut Script) {
    busy(script);
    let (one, two) = (bits(1, 8190), bits(2, 8190));
    let near_one: Vec<u64> = (one - 7..=one + 1).collect();
    let others = [1, 12, one + 7, two - 7, u64::MAX - 6, u64::MAX];
    changed(script, Field::SlotLength, 0, &near_one, 80);
    changed(script, Field::SlotLength, 0, &others, 80);
    let lengths = [one - 7, one, one + 1, two - 1, two + 1];
    changed(script, Field::SlotLength, 1, &lengths, bits(2, 1));
    changed(script, Field::SlotLength, 1, &others, bits(2, 1));
    script.poke(Field::SlotLength, 1, one + 1);
    script.read(1, 0, 0);
    changed(script, Field::SlotAccepted, 1, &[0, 3], 2);
    script.read(1, 0, 8181);
    script.read(1, 0, 8182);
    script.show();
    script.let_go(1);
    script.poke(Field::SlotLength, 2, one + 1);
    script.read(2, 0, 0);
    script.let_go(2);
    script.show();
}

fn wide_lengths(script: &mut Script) {
    busy(script);
    let top = u64::MAX - 7;
    let wide = [top, u64::MAX, 1 << 63, 1 << 32, (1 << 32) + 80];
    changed(script, Field::SlotLength, 0, &wide, 80);
    let need_65_537 = bits(65_537, 11);
    let need_65_538 = bits(65_538, 1);
    changed(script, Field::SlotLength, 0, &[need_65_537], 80);
    changed(
        script,
        Field::SlotLength,
        1,
        &[need_65_538, top],
        bits(2, 1),
    );
    script.show();
}

fn pairs(script: &mut Script) {
    busy(script);
    script.poke(Field::SlotChannel, 2, 0);
    judge(script);
    script.poke(Field::SlotApplication, 2, 6);
    judge(script);
    script.poke(Field::SlotApplication, 2, 5);
    script.poke(Field::SlotAccepted, 2, 2);
    judge(script);
    script.poke(Field::SlotAccepted, 1, 2);
    judge(script);
    script.show();
    script.fresh(&[0], 64);
    script.held(&half(0, 0, 9));
    script.held(&half(30, 0, 9));
    judge(script);
    script.poke(Field::SlotApplication, 30, 10);
    judge(script);
}

fn free_slots(script: &mut Script) {
    busy(script);
    changed(script, Field::SlotChannel, 3, &[3, 255], 0);
    changed(script, Field::SlotApplication, 30, &[1, 65_535], 0);
    changed(script, Field::SlotLength, 3, &[1, 8, 1 << 63], 0);
    changed(script, Field::SlotCount, 3, &[1, 16_384], 0);
    script.poke(Field::SlotLength, 3, 8);
    script.show();
}

fn desk_positions(script: &mut Script) {
    busy(script);
    changed(script, Field::Held, 0, &[8198, 8199, 65_535], 7);
    changed(script, Field::Held, 1, &[8198, 65_535], 0);
    changed(
        script,
        Field::Counter,
        0,
        &[1 << 24, u64::from(u32::MAX), (1 << 24) - 1],
        0,
    );
    changed(script, Field::Counter, 1, &[1 << 24, (1 << 24) - 1], 0);
    changed(script, Field::Seen, 0, &[0], 1);
    changed(script, Field::Seen, 1, &[0], 1);
    script.poke(Field::Seen, 1, 0);
    changed(script, Field::Counter, 1, &[1, (1 << 24) - 1], 0);
    changed(script, Field::Held, 1, &[1, 6, 8197], 0);
    script.show();
}

/// One octet of the desks changed, judged, and put back.
fn octet(script: &mut Script, place: usize, number: u8, back: u8) {
    script.poke_desks(place, number);
    judge(script);
    script.poke_desks(place, back);
}

fn desk_octets(script: &mut Script) {
    busy(script);
    for place in [7, 8, 8196, 8197, 8198, 2 * DESK_SIZE - 1] {
        octet(script, place, 1, 0);
    }
    octet(script, 2 * DESK_SIZE, 1, 0);
    let header = make::fill(17);
    for (place, number) in [
        (0, 0x27),
        (0, 0x87),
        (4, 0x20),
        (4, 0x1f),
        (5, 0),
        (5, 1),
        (5, 255),
    ] {
        octet(script, place, number, header[place]);
    }
    script.poke_desks(0, 0);
    for length in [0, 1, 2] {
        octet(script, 5, length, header[5]);
    }
    script.poke_desks(0, header[0]);
    changed(script, Field::Held, 0, &[0, 5, 6, 8, 16, 17, 18, 8197], 7);
    script.poke_desks(6, 9);
    changed(script, Field::Held, 0, &[6], 7);
    script.poke_desks(6, 0);
    script.poke_desks(0, 0x27);
    changed(script, Field::Held, 0, &[6], 7);
    script.poke_desks(0, header[0]);
    script.poke_desks(5, 0);
    changed(script, Field::Held, 0, &[5, 6, 7], 7);
    script.fresh(&[0, 3], 7);
    script.on_desk(1, &[0xff; 5]);
    judge(script);
    script.poke(Field::Held, 1, 4);
    judge(script);
    script.show();
}

fn past_the_counts(script: &mut Script) {
    busy(script);
    script.poke(Field::Channel, 2, 0);
    script.poke(Field::Channel, 7, 255);
    script.poke(Field::Held, 2, 9999);
    script.poke(Field::Counter, 2, u64::from(u32::MAX));
    script.poke(Field::Counter, 7, 77);
    script.poke(Field::Owner, 7, 255);
    script.poke(Field::Owner, 8, 1);
    script.poke(Field::Owner, 4095, 2);
    script.poke_desks(2 * DESK_SIZE, 0xee);
    judge(script);
    script.let_go(0);
    script.let_go(1);
    script.next_is(3, 1);
    script.packets(3, &[super::whole(8, 1)]);
    script.show();
    script.poke(Field::NumberOfChannels, 0, 8);
    script.poke(Field::NumberOfBlocks, 0, 4096);
    script.show();
    script.poke_desks(2 * DESK_SIZE, 0);
}
