//! 02, 3/14: "one operation that frees any held file and reports whether it was complete".

use super::{bits, complete, half, last, sparse_middle, sparse_start, whole, Row};
use crate::makers::script::{Field, Held, Script};
use crate::model::packet::Flags;
use crate::model::station::DESK_SIZE;
use crate::model::transport::BLOCK_SIZE;

pub const CASES: &[Row] = &[
    ("let-go-1-of-3", "a file of three packets let go after its first: reported as not complete; then N = 7 opens", one_of_three),
    ("let-go-2-of-3", "a file of three packets let go after a middle one: reported as not complete; then N = 7 opens", two_of_three),
    ("let-go-3-of-3", "a file of three packets let go after its last: reported as complete; then N = 7 opens", three_of_three),
    ("let-go-all-slots", "32 files let go, of which every second one is complete; then a file opens in slot 0 and block 0", all_slots),
    ("let-go-any", "02, 3/14: \"frees any held file and reports whether it was complete\": files of need 1 to 4 after each number of packets", any),
    ("let-go-desk", "no desk is touched: a packet half on its desk goes on, a whole one opens, the last one of the file let go gives 5", desk),
    ("let-go-lent", "nothing is lent, so nothing lent is judged: wrong desks, wrong store, wrong desk octets", nothing_lent),
    ("let-go-octets", "\"block octets stay\", and so do the other files", octets_stay),
    ("let-go-pair", "a complete and an incomplete file of the same channel and application: each is reported as it is, and goes alone", pair),
    ("let-go-refused", "a refused call reports nothing and changes nothing: 11 for slots 32 and above and slots not held, 2 for held ones", refused),
    ("let-go-then-packets", "middle and last packets of a file let go give 5, also where they would have fitted; a first one opens in the lowest slot and blocks", then_packets),
    ("let-go-twice", "a file let go twice: 0, then 11", twice),
    ("let-go-unsound", "2 for a complete and for an incomplete file, by one clause of soundness after the other; then 0 for both", unsound),
    ("let-go-whole", "a file of one packet (flags 3) is read and let go: reported as complete; the one block is free for another", whole_file),
];

/// A file of three packets let go after so many of them, and then a first packet whose file needs
/// all seven blocks.
fn after(script: &mut Script, packets: usize) {
    script.station();
    script.end_of(2, &sparse_start(5, Flags::First, 16_383, bits(3, 20)));
    if packets >= 2 {
        script.end_of(2, &sparse_middle(5, 0, BLOCK_SIZE));
    }
    if packets >= 3 {
        script.filled(2, 0, &last(5, 1, 20));
    }
    script.show();
    script.let_go(0);
    script.show();
    script.end_of(1, &sparse_start(6, Flags::First, 0, bits(7, 8190)));
    script.show();
}

fn one_of_three(script: &mut Script) {
    after(script, 1);
}

fn two_of_three(script: &mut Script) {
    after(script, 2);
}

fn three_of_three(script: &mut Script) {
    after(script, 3);
}

/// Even slots are complete in one block, odd ones incomplete in two.
fn all_slots(script: &mut Script) {
    script.fresh(&[0, 1], 48);
    for pair in 0..16 {
        script.held(&complete(2 * pair, 0, pair, 3 * pair));
        script.held(&Held {
            blocks: vec![3 * pair + 1, 3 * pair + 2],
            ..half(2 * pair + 1, 1, pair)
        });
    }
    script.filled(0, 0, &whole(5, 1));
    for slot in (0..32).rev() {
        script.let_go(slot);
    }
    script.show();
    script.filled(0, 0, &whole(5, 2));
    script.show();
}

fn any(script: &mut Script) {
    script.fresh(&[0], 5);
    for need in 1..=4 {
        for accepted in 1..=need {
            script.held(&Held {
                slot: 7 * need,
                channel: 0,
                application: need,
                length: bits(u64::from(need), 8190),
                count: 9,
                accepted,
                blocks: (1..=need).collect(),
            });
            script.let_go(7 * need);
        }
        script.show();
    }
}

fn desk(script: &mut Script) {
    script.station();
    script.filled(0, 0, &whole(5, 3));
    script.held(&half(1, 0, 5));
    let packet = whole(5, 40);
    let (held, rest) = packet.split_at(12);
    script.hold(0, held);
    script.show();
    script.let_go(0);
    script.let_go(1);
    script.show();
    script.filled(0, rest.len() as u16, rest);
    script.show();
    script.held(&half(1, 2, 5));
    let packet = last(5, 1, 1);
    let (held, rest) = packet.split_at(7);
    script.hold(2, held);
    script.let_go(1);
    script.filled(2, rest.len() as u16, rest);
    script.show();
}

fn nothing_lent(script: &mut Script) {
    script.station();
    for slot in 0..3 {
        script.held(&complete(slot, 0, 5, slot));
    }
    script.held(&Held {
        blocks: vec![3, 4],
        ..half(3, 0, 5)
    });
    let (desk, block) = (DESK_SIZE, BLOCK_SIZE);
    for (slot, desks, store) in [(0, 0, 0), (1, 4 * desk, 8 * block), (2, 1, 7 * block)] {
        script.lend(desks, store);
        script.no_frame();
        script.let_go(slot);
    }
    script.lend(4 * desk, 7 * block);
    script.poke_desks(5, 9);
    script.no_frame();
    script.let_go(3);
    script.poke_desks(5, 0);
    script.no_frame();
    script.show();
}

/// The first file octet, the last octet and the one before the file's start in each of four blocks.
fn octets_stay(script: &mut Script) {
    script.fresh(&[0], 4);
    for block in 0..4 {
        for (place, mark) in [(9, 0x10), (10, 0x20), (8189, 0x30)] {
            script.poke_store(block * BLOCK_SIZE + place, mark + block as u8);
        }
    }
    script.held(&complete(0, 0, 5, 0));
    script.held(&half(1, 0, 6));
    script.held(&complete(2, 0, 7, 1));
    script.show();
    script.read(2, 1, 0);
    script.let_go(0);
    script.let_go(1);
    script.show();
    script.read(2, 1, 0);
    script.held(&complete(5, 0, 5, 0));
    script.held(&Held {
        accepted: 2,
        ..half(1, 0, 6)
    });
    script.read(5, 1, 0);
    script.read(1, 1, 0);
    script.read(1, 2, 8179);
}

/// Slot 0 is complete and slot 1 is not, both of channel 0 and application 5.
fn same_pair(script: &mut Script) {
    script.fresh(&[0], 3);
    script.filled(0, 0, &whole(5, 3));
    script.held(&Held {
        blocks: vec![1, 2],
        ..half(1, 0, 5)
    });
}

fn pair(script: &mut Script) {
    same_pair(script);
    script.let_go(0);
    script.show();
    script.let_go(1);
    script.show();
    same_pair(script);
    script.let_go(1);
    script.show();
    script.filled(0, 0, &last(5, 1, 1));
    script.read(0, 3, 0);
    script.let_go(0);
    same_pair(script);
    script.let_go(0);
    script.filled(0, 0, &last(5, 1, 1));
    script.show();
    script.let_go(1);
    script.show();
}

fn refused(script: &mut Script) {
    script.station();
    script.held(&complete(31, 0, 5, 0));
    script.held(&half(1, 1, 5));
    script.hold(0, &[0xff; 3]);
    script.show();
    for slot in [0, 2, 30, 32, 33, 63, 255, 256, 257, 287, 32_769, 65_535] {
        script.let_go(slot);
    }
    script.show();
    script.poke(Field::SlotCount, 1, 16_384);
    for slot in [1, 31, 0, 32, 65_535] {
        script.let_go(slot);
    }
    script.show();
    script.poke(Field::SlotCount, 1, 0);
    script.let_go(31);
    script.let_go(1);
    script.show();
}

fn then_packets(script: &mut Script) {
    script.station();
    script.held(&complete(0, 0, 1, 1));
    script.held(&complete(2, 0, 2, 2));
    script.held(&Held {
        length: bits(3, 20),
        count: 16_383,
        blocks: vec![0, 3, 5],
        ..half(1, 2, 5)
    });
    script.let_go(1);
    script.end_of(2, &sparse_middle(5, 0, BLOCK_SIZE));
    script.filled(2, 0, &last(5, 1, 20));
    script.show();
    script.end_of(2, &sparse_start(5, Flags::First, 9, bits(3, 20)));
    script.filled(2, 0, &whole(6, 1));
    script.show();
}

fn twice(script: &mut Script) {
    script.fresh(&[0], 3);
    script.filled(0, 0, &whole(5, 3));
    script.held(&Held {
        blocks: vec![1, 2],
        ..half(1, 0, 6)
    });
    for slot in [0, 1] {
        script.let_go(slot);
        script.let_go(slot);
        script.read(slot, 0, 0);
    }
    script.show();
}

fn unsound(script: &mut Script) {
    script.fresh(&[0, 3], 7);
    script.held(&complete(0, 0, 5, 0));
    script.held(&half(1, 0, 5));
    for (field, index, number, back) in [
        (Field::NumberOfChannels, 0, 0, 2),
        (Field::Channel, 1, 0, 3),
        (Field::Held, 1, 1, 0),
        (Field::Counter, 1, 1, 0),
        (Field::NumberOfBlocks, 0, 4097, 7),
        (Field::Owner, 6, 1, 0),
        (Field::SlotChannel, 0, 1, 0),
        (Field::SlotApplication, 0, 2016, 5),
        (Field::SlotLength, 0, 0, 80),
        (Field::SlotLength, 1, 80, bits(2, 1)),
        (Field::SlotCount, 0, 16_384, 0),
        (Field::SlotAccepted, 0, 2, 1),
        (Field::SlotAccepted, 1, 3, 1),
        (Field::SlotCount, 31, 1, 0),
    ] {
        script.poke(field, index, number);
        script.let_go(0);
        script.let_go(1);
        script.poke(field, index, back);
    }
    script.show();
    script.let_go(0);
    script.let_go(1);
    script.show();
}

fn whole_file(script: &mut Script) {
    script.fresh(&[0], 1);
    script.filled(0, 0, &[whole(5, 4), whole(6, 5)].concat());
    script.read(0, 4, 0);
    script.let_go(0);
    script.show();
    script.filled(0, 0, &whole(6, 5));
    script.read(0, 5, 0);
    script.show();
}
