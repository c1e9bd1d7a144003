//! Each event, in each of its forms.

use super::{
    bits, complete, damaged, first, half, last, middle, octets, packet, sparse_middle,
    sparse_start, start_data, whole, whole_of_bits, Row,
};
use crate::makers::make;
use crate::makers::script::{Field, Held, Script};
use crate::model::packet::{Application, Flags};

pub const CASES: &[Row] = &[
    ("event-01", "1: a counter repeated, gone back, or jumped; not at the first frame; the frame is read all the same", gap),
    ("event-02", "2: r below 884 with another pointer or 2047; r from 884 with a pointer; reading begins at the pointer", pointer_differs),
    ("event-03", "3: a bad header in the zone drops the rest of it; each kind of bad header", bad_header),
    ("event-04", "4: damage in the data or the CRC; damage of the header is not seen", wrong_crc),
    ("event-05", "5: middle or last without an incomplete file of the pair; a complete one, or one of another channel, is none", no_file),
    ("event-06-abandoned", "6 by a first or whole packet, whatever follows: 7, 9, 10, 10 and 12", abandoned),
    ("event-06-last", "6 by a last packet: wrong count, wrong octets, not the Nth", wrong_last),
    ("event-06-middle", "6 by a middle packet: too few octets", wrong_middle),
    ("event-06-middle-count", "6 by a middle packet of 8,190 octets whose count is repeated", middle_count),
    ("event-06-middle-nth", "6 by a middle packet of 8,190 octets that is the Nth", middle_nth),
    ("event-06-reopened", "6 then 10: a first packet again, in the slot and blocks just freed; octets stay", reopened),
    ("event-07", "7: data under 10 octets, shapes that are wrong", bad_start),
    ("event-07-first", "7: a first packet of 8,190 octets whose file would fit one packet", first_of_one),
    ("event-07-whole", "7: a whole packet of 8,190 octets whose need is 2", whole_of_two),
    ("event-08", "8: all 32 slots held, before 9; not where one of them is abandoned", no_slot),
    ("event-09", "9: no block free, for a whole file", no_room),
    ("event-09-wide", "9: L = 2^64 - 8, whose need has 49 bits", no_room_wide),
    ("event-09-widest", "9: L = 2^64 - 1, the greatest; a whole packet of 10, 11 or 12 octets is 7", no_room_widest),
    ("event-10-12", "10 and 12: whole files in the lowest free slots and blocks", whole_files),
    ("event-11-12", "10, 11, 12: a file of three packets, with packets of others between; reads of its octets", three_packets),
    ("event-13", "13: 2016 to 2046 are skipped, with any flags and octets", reserved),
    ("events-151", "the most events a frame can give: 151, with a first packet carried on", most_events),
    ("events-151-whole", "151 events again, with a whole packet carried on and two octets left", most_events_whole),
];

fn gap(script: &mut Script) {
    script.station();
    let zone = [whole(5, 1), make::fill(865)].concat();
    for counter in [500, 500, 499, 500, 502] {
        script.next_is(0, counter);
        script.zone(0, 2047, &zone);
    }
    script.next_is(0, 9);
    script.zone(0, 0, &zone);
    script.carry(1, &zone[..10]);
    script.count_on(1, 1);
    script.filled(1, 9, &zone[10..19]);
    script.show();
}

fn pointer_differs(script: &mut Script) {
    script.station();
    let packet = whole(5, 100);
    let (held, rest) = packet.split_at(10);
    let lacked = rest.len() as u16;
    for pointer in [lacked, lacked - 1, lacked + 1, 2047] {
        script.carry(0, held);
        script.filled(0, pointer, rest);
    }
    script.show();
    script.carry(0, held);
    let zone = [rest, &make::fill(300), &whole(6, 1)].concat();
    script.filled(0, lacked + 300, &zone);
    script.carry(1, &make::fill(2000)[..10]);
    script.filled(1, 0, &whole(7, 1));
    script.show();
}

fn bad_header(script: &mut Script) {
    script.station();
    for bad in [
        [0x20, 5, 0xc0, 0, 0, 12],
        [0, 5, 0xc0, 0, 0x20, 0],
        [0, 5, 0xc0, 0, 0xff, 0xff],
        [0, 5, 0xc0, 0, 0, 1],
        [7, 0xdf, 0xc0, 0, 0, 0],
        [0x27, 0xff, 0xc0, 0, 0, 12],
        [7, 0xff, 0xc0, 0, 0x20, 0],
    ] {
        let packets = [&whole(5, 1)[..], &bad, &whole(6, 1)[6..], &whole(7, 1)];
        script.filled(0, 0, &packets.concat());
    }
    script.zone(1, 200, &[0xff; 884]);
    script.show();
}

fn wrong_crc(script: &mut Script) {
    script.station();
    let good = whole(5, 8);
    let flipped = |place: usize, bits: u8| {
        let mut packet = good.clone();
        packet[place] ^= bits;
        packet
    };
    let data = [6, 15, 16, 23, 24, 25].map(|place| flipped(place, 0x10));
    script.packets(0, &data);
    let header = [flipped(1, 2), flipped(3, 0x40), flipped(0, 0x18)];
    script.packets(
        0,
        &[&header[..], &[damaged(last(9, 0, 1)), good.clone()]].concat(),
    );
    script.show();
}

fn no_file(script: &mut Script) {
    script.station();
    script.held(&half(0, 1, 5));
    script.held(&complete(1, 0, 5, 6));
    let packets = [
        last(5, 1, 1),
        packet(5, Flags::Middle, 1, &octets(1)),
        last(2015, 0, 3),
    ];
    script.packets(0, &packets);
    script.packets(2, &packets);
    script.packets(1, &[last(6, 1, 1), last(5, 1, 1), last(5, 2, 1)]);
    script.show();
}

fn abandoned(script: &mut Script) {
    let starts = [
        packet(5, Flags::First, 9, &octets(1)),
        packet(5, Flags::Whole, 9, &octets(9)),
        packet(5, Flags::First, 9, &start_data(65_448, 100)),
        packet(5, Flags::Whole, 9, &start_data(0, 10)),
        whole(5, 3),
    ];
    for start in starts {
        script.station();
        script.held(&half(0, 0, 5));
        script.held(&half(1, 1, 5));
        script.filled(0, 0, &start);
        script.show();
    }
    script.fresh(&[0], 2);
    script.held(&half(0, 0, 5));
    script.end_of(0, &sparse_start(5, Flags::First, 9, bits(3, 1)));
    script.show();
}

fn reopened(script: &mut Script) {
    script.fresh(&[0], 3);
    script.held(&Held {
        slot: 1,
        ..half(0, 0, 5)
    });
    script.poke(Field::Owner, 0, 2);
    script.poke(Field::Owner, 1, 2);
    script.held(&complete(0, 0, 6, 2));
    script.end_of(0, &sparse_start(5, Flags::First, 100, bits(2, 30)));
    script.filled(0, 0, &last(5, 101, 30));
    script.show();
    script.read(1, 40, 8170);
}

/// A file of need 3 whose first packet had count 5, and whose last has 20 octets.
fn third(accepted: u16) -> Held {
    Held {
        length: bits(3, 20),
        count: 5,
        accepted,
        blocks: vec![1, 3, 5],
        ..half(0, 2, 5)
    }
}

fn wrong_last(script: &mut Script) {
    for (accepted, count, rest) in [
        (2, 6, 20),
        (2, 5, 20),
        (2, 7, 20),
        (2, 6, 19),
        (2, 6, 21),
        (1, 6, 20),
    ] {
        script.station();
        script.held(&third(accepted));
        script.packets(2, &[last(5, count, rest), last(5, count + 1, rest)]);
        script.show();
    }
}

fn wrong_middle(script: &mut Script) {
    for size in [20, 8189] {
        script.station();
        script.held(&third(1));
        script.end_of(2, &sparse_middle(5, 6, size));
        script.show();
    }
}

fn middle_count(script: &mut Script) {
    script.station();
    script.held(&third(1));
    script.end_of(2, &sparse_middle(5, 5, 8190));
    script.show();
}

fn middle_nth(script: &mut Script) {
    script.station();
    script.held(&Held {
        length: bits(3, 8190),
        ..third(2)
    });
    script.end_of(2, &sparse_middle(5, 6, 8190));
    script.show();
}

fn bad_start(script: &mut Script) {
    script.station();
    for flags in [Flags::First, Flags::Whole] {
        let packets: Vec<Vec<u8>> = [1, 2, 9, 10, 12, 100]
            .iter()
            .map(|&size| packet(5, flags, 0, &start_data(8, size)))
            .collect();
        script.packets(0, &packets);
    }
    let wide = u64::MAX - 7;
    let packets = [
        packet(5, Flags::First, 0, &start_data(8, 11)),
        packet(5, Flags::First, 0, &start_data(65_448, 700)),
        packet(5, Flags::Whole, 0, &start_data(65_448, 11)),
        packet(5, Flags::Whole, 0, &start_data(wide, 11)),
        packet(5, Flags::Whole, 0, &start_data(524_208, 10)),
    ];
    script.packets(0, &packets);
    script.show();
}

fn first_of_one(script: &mut Script) {
    script.station();
    script.end_of(0, &sparse_start(5, Flags::First, 0, 65_440));
    script.show();
}

fn whole_of_two(script: &mut Script) {
    script.station();
    script.end_of(0, &sparse_start(5, Flags::Whole, 0, 65_448));
    script.show();
}

fn no_slot(script: &mut Script) {
    script.fresh(&[0, 1], 40);
    for slot in 0..31 {
        script.held(&complete(slot, 0, slot, slot));
    }
    script.held(&Held {
        blocks: vec![31, 32],
        ..half(31, 1, 5)
    });
    script.filled(0, 0, &whole(5, 1));
    script.filled(0, 0, &packet(5, Flags::Whole, 0, &start_data(0, 10)));
    script.filled(1, 0, &[whole(6, 1), whole(5, 2), whole(5, 3)].concat());
    script.show();
    script.let_go(7);
    script.filled(0, 0, &whole(5, 4));
    script.show();
    script.poke(Field::NumberOfBlocks, 0, 32);
    script.lend(2 * 8198, 32 * 8190);
    script.filled(0, 0, &whole(5, 4));
}

fn no_room(script: &mut Script) {
    script.fresh(&[0], 2);
    script.held(&half(0, 0, 9));
    script.filled(
        0,
        0,
        &[whole(5, 1), packet(5, Flags::Whole, 0, &start_data(0, 10))].concat(),
    );
    script.show();
    script.filled(0, 0, &[last(9, 1, 1), whole(9, 2)].concat());
    script.let_go(0);
    script.filled(0, 0, &[whole(5, 1), whole(5, 2), whole(5, 3)].concat());
    script.show();
}

fn no_room_wide(script: &mut Script) {
    script.station();
    script.end_of(0, &sparse_start(5, Flags::First, 0, u64::MAX - 7));
    script.filled(0, 0, &whole(6, 2));
    script.show();
}

fn no_room_widest(script: &mut Script) {
    script.station();
    script.end_of(0, &sparse_start(5, Flags::First, 0, u64::MAX));
    let packets = [0, 1, 2].map(|number| whole_of_bits(6, u64::MAX, &octets(number)));
    script.filled(0, 0, &packets.concat());
    script.show();
}

fn whole_files(script: &mut Script) {
    script.station();
    script.held(&complete(1, 0, 1, 2));
    script.held(&complete(3, 0, 1, 0));
    script.packets(0, &[whole(5, 1), whole(0, 2), whole(2015, 3), whole(5, 4)]);
    script.show();
    for slot in 0..6 {
        script.read(slot, slot_size(slot), 0);
    }
    script.let_go(2);
    script.let_go(0);
    script.packets(1, &[whole(7, 500)]);
    script.read(0, 500, 0);
    script.show();
}

/// The octets of the files in their slots; 0 where another stands.
fn slot_size(slot: u16) -> u32 {
    match slot {
        0 => 1,
        2 => 2,
        4 => 3,
        5 => 4,
        _ => 0,
    }
}

fn three_packets(script: &mut Script) {
    script.station();
    script.held(&complete(0, 3, 1, 1));
    let between = [whole(6, 5), make::zeros(Application(2040), 30), whole(7, 6)];
    let [a, b, c] = between;
    script.packets(
        2,
        &[first(5, 16_382, bits(3, 200)), a, middle(5, 16_383), b],
    );
    script.packets(1, &[whole(5, 7)]);
    script.packets(2, &[c, last(5, 0, 200)]);
    script.show();
    for (octets, offset) in [
        (4, 0),
        (4, 8178),
        (4, 16_368),
        (10, 16_560),
        (0, 16_570),
        (1, 16_570),
    ] {
        script.read(1, octets, offset);
    }
    script.let_go(1);
    script.show();
}

fn reserved(script: &mut Script) {
    script.station();
    script.held(&half(0, 0, 5));
    let packets: Vec<Vec<u8>> = [2016, 2017, 2030, 2046, 2047]
        .iter()
        .map(|&application| make::zeros(Application(application), 7))
        .collect();
    script.packets(0, &packets);
    let flags = [Flags::Middle, Flags::First, Flags::Last, Flags::Whole];
    let packets: Vec<Vec<u8>> = flags
        .iter()
        .map(|&flags| packet(2016, flags, 3, &octets(40)))
        .collect();
    script.packets(0, &packets);
    script.show();
}

/// 32 incomplete files of channel 0, applications 0 to 31, in all 64 blocks.
fn thirty_two(script: &mut Script) {
    script.fresh(&[0], 64);
    for slot in 0..32 {
        script.held(&half(slot, 0, slot));
    }
}

/// A first packet with one octet of data: events 6 and 7.
fn starved(application: u16) -> Vec<u8> {
    packet(application, Flags::First, 0, &[0])
}

fn most_events(script: &mut Script) {
    thirty_two(script);
    let packet = first(0, 7, bits(2, 1));
    let (held, last) = packet.split_at(8197);
    script.hold(0, &held[..241]);
    for zone in held[241..].chunks(884) {
        script.zone(0, 2047, zone);
    }
    script.show();
    let mut zone = last.to_vec();
    zone.extend((0..32).flat_map(starved));
    zone.extend((0..85).flat_map(|k| make::zeros(Application(2016 + k % 31), 7)));
    script.zone(0, 1, &zone);
    script.show();
}

fn most_events_whole(script: &mut Script) {
    thirty_two(script);
    let packet = whole(31, 1);
    script.hold(0, &packet[..18]);
    let mut zone = packet[18..].to_vec();
    zone.extend((0..31).flat_map(starved));
    zone.extend((0..86).flat_map(|k| make::zeros(Application(2046 - k % 31), 7)));
    zone.extend([0x12, 0x34]);
    script.zone(0, 1, &zone);
    script.show();
}
