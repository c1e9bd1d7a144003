//! Files in their blocks: which blocks, what is written, what is read.

use super::{
    bits, complete, half, last, octets, packet, sparse, sparse_start, start_data, whole, Row,
};
use crate::makers::script::{Field, Held, Script};
use crate::model::packet::Flags;
use crate::model::transport::BLOCK_SIZE;

pub const CASES: &[Row] = &[
    ("read-borders", "reads at every block border of a file in blocks 1, 4 and 6: before, over and behind it; the last octets", borders),
    ("read-filled-up", "a file of three packets, of whose last octet 5 bits fill up: reads over its borders and to its very end; a last packet with an octet less or more", filled_up),
    ("read-long", "a read of 16,384 octets over three blocks up to the file's end, and one past it", long),
    ("read-unchanged", "reads and refused calls change nothing", unchanged),
    ("read-whole", "reads in a file of one block; the ten transport octets don't count", in_one_block),
    ("store-choice", "the lowest free slot and the lowest free blocks, where both are scattered", choice),
    ("store-pairs", "the same application on two channels and two applications on one: four files side by side", pairs),
    ("store-rest-stays", "data is written from its block's start and the rest of the block stays; freeing writes nothing", rest_stays),
];

/// A complete file of need 3 in blocks 1, 4 and 6 whose last block has 100 octets; the octets
/// next to each border are poked into the store.
fn scattered(script: &mut Script) {
    script.station();
    let blocks = vec![1, 4, 6];
    for (place, &block) in blocks.iter().enumerate() {
        let from = usize::from(block) * BLOCK_SIZE;
        for step in 0..3 {
            let mark = (0x10 * (place + 1) + step) as u8;
            script.poke_store(from + step, mark);
            script.poke_store(from + 10 + step, mark + 4);
            script.poke_store(from + BLOCK_SIZE - 1 - step, mark + 8);
        }
    }
    let end = 6 * BLOCK_SIZE + 100;
    script.poke_store(end - 1, 0x3e);
    script.poke_store(end, 0x3f);
    script.held(&Held {
        length: bits(3, 100),
        accepted: 3,
        blocks,
        ..half(9, 3, 5)
    });
}

fn borders(script: &mut Script) {
    scattered(script);
    let (first, second, end) = (8180, 16_370, 16_470);
    for border in [first, second] {
        for (octets, before) in [(1, 1), (1, 0), (2, 1), (2, 2), (3, 0), (6, 3), (0, 0)] {
            script.read(9, octets, border - before);
        }
    }
    for (octets, offset) in [
        (3, 0),
        (1, 0),
        (1, end - 1),
        (2, end - 2),
        (0, end),
        (1, end),
        (2, end - 1),
        (0, end + 1),
    ] {
        script.read(9, octets, offset);
    }
    script.read(9, 8196, first - 3);
    script.show();
}

fn filled_up(script: &mut Script) {
    let length = bits(3, 100) - 5;
    script.station();
    script.held(&complete(0, 3, 1, 1));
    script.end_of(2, &sparse_start(5, Flags::First, 16_382, length));
    let middle = sparse(octets(BLOCK_SIZE), 4);
    script.end_of(2, &packet(5, Flags::Middle, 16_383, &middle));
    script.filled(2, 0, &last(5, 0, 100));
    script.show();
    let end = 16_470;
    for (octets, offset) in [
        (8, 8176),
        (6, 16_367),
        (100, end - 100),
        (101, end - 100),
        (1, end - 1),
        (0, end),
        (1, end),
        (0, end + 1),
    ] {
        script.read(1, octets, offset);
    }
    for rest in [99, 101] {
        script.station();
        script.held(&Held {
            length,
            accepted: 2,
            blocks: vec![0, 2, 3],
            ..half(1, 2, 5)
        });
        script.filled(2, 0, &last(5, 1, rest));
        script.show();
    }
}

fn long(script: &mut Script) {
    scattered(script);
    script.read(9, 16_384, 86);
    script.read(9, 16_384, 87);
}

fn in_one_block(script: &mut Script) {
    script.station();
    script.packets(1, &[whole(9, 300)]);
    for (octets, offset) in [
        (300, 0),
        (0, 0),
        (1, 0),
        (1, 299),
        (0, 300),
        (100, 100),
        (299, 1),
        (300, 1),
    ] {
        script.read(0, octets, offset);
    }
}

fn unchanged(script: &mut Script) {
    scattered(script);
    script.held(&Held {
        blocks: vec![2, 3],
        ..half(0, 0, 7)
    });
    script.show();
    script.read(9, 40, 8160);
    script.read(0, 1, 0);
    script.read(9, 40, 16_460);
    for slot in [10, 32, 265] {
        script.let_go(slot);
    }
    script.poke(Field::SlotCount, 0, 16_384);
    for slot in [0, 9] {
        script.read(slot, 1, 0);
        script.let_go(slot);
    }
    script.no_frame();
    script.poke(Field::SlotCount, 0, 0);
    script.frame(&[0; 1024]);
    script.unit(899, &[]);
    script.show();
}

fn choice(script: &mut Script) {
    script.fresh(&[0, 1], 9);
    for (slot, block) in [(0, 7), (2, 0), (3, 3)] {
        script.held(&complete(slot, 1, 50 + slot, block));
    }
    script.packets(0, &[whole(5, 3), whole(6, 4)]);
    script.show();
    script.let_go(2);
    script.end_of(0, &sparse_start(7, Flags::First, 0, bits(4, 9)));
    script.packets(0, &[whole(8, 5)]);
    script.show();
    script.packets(0, &[whole(9, 6)]);
    script.let_go(3);
    script.packets(0, &[whole(9, 6)]);
    script.show();
}

fn pairs(script: &mut Script) {
    script.fresh(&[0, 1], 8);
    for (slot, channel, application) in [(0, 0, 5), (1, 0, 6), (2, 1, 5), (3, 1, 6)] {
        script.held(&half(slot, channel, application));
    }
    script.filled(1, 0, &last(5, 1, 1));
    script.filled(0, 0, &last(6, 1, 1));
    script.filled(0, 0, &last(5, 2, 1));
    script.show();
    script.filled(1, 0, &[last(5, 1, 1), last(6, 1, 1)].concat());
    script.show();
}

fn rest_stays(script: &mut Script) {
    script.fresh(&[0], 2);
    for place in [0, 10, 18, 19, 20, 8189, 8190] {
        script.poke_store(place, 0xc3);
    }
    script.filled(0, 0, &whole(5, 9));
    script.show();
    script.let_go(0);
    script.filled(0, 0, &packet(5, Flags::Whole, 0, &start_data(8, 11)));
    script.show();
    script.let_go(0);
    script.held(&Held {
        length: 8 * 8180,
        ..complete(0, 0, 5, 0)
    });
    script.read(0, 30, 0);
    script.read(0, 3, 8177);
}
