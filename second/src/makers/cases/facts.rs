//! 02, 5/14: the channel, the application, the file counter and L of a complete file, by its slot.

use super::{bits, complete, half, last, Row};
use crate::makers::make::PacketFields;
use crate::makers::script::{Field, Held, Script};
use crate::model::packet::{Application, Flags};
use crate::model::station::DESK_SIZE;
use crate::model::transport::BLOCK_SIZE;

pub const PREFIX: &str = "facts-";

pub const CASES: &[Row] = &[
    ("facts-11", "11: slots that are free, and slots of 32 and above", not_held),
    ("facts-12", "12 for an incomplete file; after its last packet its facts", incomplete),
    ("facts-after-let-go", "11 after the file was let go; the counter in the store tells nothing of a free slot", after_let_go),
    ("facts-complete", "02, 5/14: \"channel 1, application 2, file counter 2, L 8\" of a file of one packet, and nothing changes", of_one_packet),
    ("facts-counters", "counters 0, 1, 255, 256 and 65,535, the first two octets of the block: poked octets before, in and behind them", counters),
    ("facts-numbers", "the greatest numbers: channel 62, application 2015, and the lengths at the end of a block", numbers),
    ("facts-of-several", "a file of three packets whose first block is not the lowest of the store: its own first block has the counter", of_several),
    ("facts-order", "the lowest number that applies: 1, 2, 11, 12", order),
    ("facts-store", "1: a store of another size than at set-up; desks are not lent", other_store),
    ("facts-two", "two files at once, of the same channel and application, each with its own counter and length", two),
    ("facts-unsound", "2 by one clause of soundness after the other, for a complete file and a free slot", unsound),
];

/// A whole packet of a file with this counter, count 0.
fn whole(application: u16, counter: u16, octets: &[u8]) -> Vec<u8> {
    let length = octets.len() as u64 * 8;
    let data = [&counter.to_be_bytes()[..], &length.to_be_bytes(), octets].concat();
    PacketFields::plain(Application(application), Flags::Whole, 0).packet(&data)
}

fn of_one_packet(script: &mut Script) {
    script.station();
    script.filled(2, 0, &whole(5, 0x1234, &[7; 20]));
    script.show();
    script.facts(0);
    script.show();
}

/// Both octets of the counter of a file that starts in this block.
fn poke_counter(script: &mut Script, block: usize, counter: u16) {
    for (place, octet) in counter.to_be_bytes().into_iter().enumerate() {
        script.poke_store(block * BLOCK_SIZE + place, octet);
    }
}

fn counters(script: &mut Script) {
    script.fresh(&[4], 3);
    script.held(&complete(0, 4, 9, 1));
    for counter in [0, 1, 255, 256, 0x8001, 65_535] {
        poke_counter(script, 1, counter);
        script.facts(0);
    }
    for place in [
        BLOCK_SIZE - 1,
        BLOCK_SIZE + 2,
        BLOCK_SIZE + 9,
        0,
        1,
        2 * BLOCK_SIZE,
    ] {
        script.poke_store(place, 0x77);
        script.facts(0);
    }
    script.poke_store(BLOCK_SIZE, 3);
    script.facts(0);
    script.poke_store(BLOCK_SIZE + 1, 4);
    script.facts(0);
}

fn numbers(script: &mut Script) {
    script.fresh(&[62, 0], 4);
    for (slot, length) in [(31, 65_440), (30, 1), (1, 7)] {
        script.held(&Held {
            length,
            ..complete(slot, 62, 2015, slot % 4)
        });
        poke_counter(script, usize::from(slot % 4), 40_000 + slot);
        script.facts(slot);
        script.let_go(slot);
    }
    for length in [bits(4, 1) - 7, bits(4, 8190)] {
        script.held(&Held {
            slot: 17,
            channel: 0,
            application: 0,
            length,
            count: 16_383,
            accepted: 4,
            blocks: vec![0, 1, 2, 3],
        });
        script.facts(17);
    }
}

fn incomplete(script: &mut Script) {
    script.station();
    script.held(&half(0, 2, 5));
    poke_counter(script, 0, 0x0102);
    script.facts(0);
    script.filled(2, 0, &last(5, 1, 1));
    script.facts(0);
    script.fresh(&[0], 5);
    for accepted in [1, 2, 3, 4] {
        script.held(&Held {
            slot: 3,
            channel: 0,
            application: 6,
            length: bits(4, 100),
            count: 0,
            accepted,
            blocks: vec![1, 2, 3, 4],
        });
        script.facts(3);
    }
}

fn not_held(script: &mut Script) {
    script.station();
    script.held(&complete(7, 1, 5, 0));
    script.held(&complete(31, 1, 6, 1));
    for slot in [0, 6, 8, 30, 32, 33, 39, 63, 255, 256, 263, 32_775, 65_535] {
        script.facts(slot);
    }
    script.facts(7);
    script.facts(31);
}

fn after_let_go(script: &mut Script) {
    script.fresh(&[0, 1], 2);
    for (slot, counter) in [(0, 500), (1, 600)] {
        script.held(&complete(slot, 1, 5 + slot, slot));
        poke_counter(script, usize::from(slot), counter);
    }
    script.let_go(0);
    script.facts(0);
    script.facts(1);
    script.held(&complete(2, 0, 9, 0));
    script.facts(2);
    script.let_go(1);
    script.let_go(2);
    for slot in 0..3 {
        script.facts(slot);
    }
}

fn of_several(script: &mut Script) {
    script.station();
    for (block, counter) in [(0, 100), (2, 200), (4, 300), (6, 400)] {
        poke_counter(script, block, counter);
    }
    script.held(&complete(0, 3, 8, 0));
    script.held(&Held {
        length: bits(3, 100) - 3,
        accepted: 3,
        blocks: vec![2, 4, 6],
        ..half(1, 3, 8)
    });
    script.facts(0);
    script.facts(1);
    script.poke_store(4 * BLOCK_SIZE, 9);
    script.facts(1);
    script.poke_store(2 * BLOCK_SIZE + 1, 9);
    script.facts(1);
}

fn two(script: &mut Script) {
    script.station();
    let packets = [whole(5, 65_535, &[1; 3]), whole(5, 0, &[2; 400])];
    script.filled(1, 0, &packets.concat());
    script.facts(0);
    script.facts(1);
    script.held(&Held {
        blocks: vec![2, 3],
        ..half(2, 1, 5)
    });
    for slot in 0..4 {
        script.facts(slot);
    }
    script.show();
}

fn other_store(script: &mut Script) {
    script.station();
    script.held(&complete(0, 0, 5, 0));
    let (desk, block) = (DESK_SIZE, BLOCK_SIZE);
    for (desks, store) in [
        (4 * desk, 0),
        (4 * desk, 6 * block),
        (4 * desk, 7 * block - 1),
        (4 * desk, 7 * block + 1),
        (4 * desk, 8 * block),
        (0, 7 * block),
        (4 * desk + 1, 7 * block),
    ] {
        script.lend(desks, store);
        script.facts(0);
        script.facts(1);
    }
    script.lend(4 * desk, 7 * block);
    script.poke_desks(5, 9);
    script.facts(0);
    script.poke_desks(5, 0);
}

fn order(script: &mut Script) {
    script.fresh(&[0], 3);
    script.held(&half(0, 0, 5));
    script.facts(0);
    script.facts(1);
    script.poke(Field::SlotCount, 0, 16_384);
    for slot in [0, 1, 32] {
        script.facts(slot);
    }
    script.lend(DESK_SIZE, 2 * BLOCK_SIZE);
    for slot in [0, 1, 32] {
        script.facts(slot);
    }
    script.poke(Field::SlotCount, 0, 0);
    for slot in [0, 1, 32] {
        script.facts(slot);
    }
    script.poke(Field::NumberOfBlocks, 0, 0);
    script.facts(0);
}

fn unsound(script: &mut Script) {
    script.fresh(&[0, 3], 7);
    script.held(&complete(0, 0, 5, 0));
    script.held(&half(1, 0, 5));
    for (field, index, number, back) in [
        (Field::NumberOfChannels, 0, 0, 2),
        (Field::Held, 1, 1, 0),
        (Field::Counter, 1, 1, 0),
        (Field::Owner, 6, 1, 0),
        (Field::Owner, 0, 0, 1),
        (Field::SlotChannel, 0, 1, 0),
        (Field::SlotApplication, 0, 2016, 5),
        (Field::SlotLength, 0, 0, 80),
        (Field::SlotAccepted, 0, 2, 1),
        (Field::SlotCount, 9, 1, 0),
    ] {
        script.poke(field, index, number);
        script.facts(0);
        script.facts(9);
        script.poke(field, index, back);
    }
    script.facts(0);
    script.facts(9);
}
