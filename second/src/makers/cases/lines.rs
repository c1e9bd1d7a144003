//! "Both sides of the line": the cases that are not starred, and the starred ones once more
//! where a frame shows them.

use super::{bits, first, half, last, packet, sparse_start, start_data, whole, whole_of_bits, Row};
use crate::makers::make;
use crate::makers::script::{Field, Held, Script};
use crate::model::packet::{Application, Flags};

pub const CASES: &[Row] = &[
    (
        "line-blocks-2-opens",
        "\"Seven blocks, one held file of 5\": N = 2 opens",
        two_opens,
    ),
    (
        "line-blocks-3-gives-9",
        "\"Seven blocks, one held file of 5\": N = 3 gives 9",
        three_gives_9,
    ),
    (
        "line-blocks-7-opens",
        "\"Seven blocks, one held file of 5\": \"after the held file's release N = 7 opens\" (it is let go)",
        seven_opens,
    ),
    (
        "line-blocks-rounded-up",
        "\"Seven blocks, one held file of 5\", of 262,001 bits: L = 130,960 opens; 130,961 gives 9, then 12 opens; the file let go, 458,561 gives 9, 458,560 opens",
        rounded_up,
    ),
    (
        "line-count-wrap",
        "\"Count 16,383 then 0 follows\"",
        count_wrap,
    ),
    (
        "line-counter-wrap",
        "\"Counter 16,777,215 then 0 follows\"",
        counter_wrap,
    ),
    (
        "line-length-1-7-8-9",
        "L = 1, 7 and 8: 1 octet; L = 9: 2 octets; an octet less and an octet more are wrong",
        length_1_7_8_9,
    ),
    (
        "line-length-12",
        "02, 2/14: L = 12 is \"N = 1 with 12 octets of data\"; 11 and 13 are wrong, and L = 0; the bits that fill up are read as they came",
        length_12,
    ),
    (
        "line-length-65433",
        "L = 65,433: a whole packet of 8,190 octets of data, which are too many for 65,432; up to 65,440 the file's end is the same",
        length_65433,
    ),
    (
        "line-length-65440",
        "L = 65,440: a whole packet of 8,190 octets of data",
        length_65440,
    ),
    (
        "line-length-65441",
        "L = 65,441: N = 2, the last packet has 1 octet; 2 octets are wrong, and a whole packet",
        length_65441,
    ),
    (
        "line-length-65448",
        "L = 65,448: N = 2, the last packet has 1 octet; 2 and 9 octets are wrong",
        length_65448,
    ),
    (
        "line-packet-lengths",
        "\"Length 8191 good, 8192 bad; application 2015 with length 1 bad, 2047 with 0 good\"",
        packet_lengths,
    ),
    (
        "line-pointer",
        "pointer 883 is read from, one octet is left; 2047 starts nothing",
        pointer,
    ),
    ("line-r-1", "r = 1 wants 1: 0 and 2 are wrong", r_1),
    (
        "line-r-883",
        "\"r = 883 wants 883\": 882 and 2047 are wrong",
        r_883,
    ),
    (
        "line-r-884",
        "\"r = 884 wants 2047\": 883 and 0 are wrong; the packet is judged in this frame",
        r_884,
    ),
    ("line-r-885", "r = 885 wants 2047 and one octet more", r_885),
];

/// Seven blocks, the first five of which hold a complete file of this length in slot 0.
fn one_held_file_of_5(script: &mut Script, length: u64) {
    script.station();
    script.held(&Held {
        slot: 0,
        channel: 3,
        application: 100,
        length,
        count: 4,
        accepted: 5,
        blocks: vec![0, 1, 2, 3, 4],
    });
}

fn two_opens(script: &mut Script) {
    one_held_file_of_5(script, bits(5, 8190));
    script.packets(0, &[first(5, 9, bits(2, 8190))]);
    script.show();
}

fn three_gives_9(script: &mut Script) {
    one_held_file_of_5(script, bits(5, 8190));
    script.packets(0, &[first(5, 9, bits(3, 1))]);
    script.show();
}

fn seven_opens(script: &mut Script) {
    one_held_file_of_5(script, bits(5, 8190));
    script.let_go(0);
    script.packets(0, &[first(5, 9, bits(7, 8190))]);
    script.show();
}

fn rounded_up(script: &mut Script) {
    let first = |application, length| sparse_start(application, Flags::First, 9, length);
    one_held_file_of_5(script, bits(4, 8190) + 1);
    script.end_of(0, &first(5, bits(2, 8190)));
    script.show();
    one_held_file_of_5(script, bits(4, 8190) + 1);
    script.end_of(0, &first(5, bits(2, 8190) + 1));
    let whole = whole_of_bits(6, 12, &[0xab, 0xcd]);
    script.filled(0, 0, &whole.repeat(3));
    script.show();
    one_held_file_of_5(script, bits(4, 8190) + 1);
    script.let_go(0);
    script.end_of(0, &first(5, bits(7, 8190) + 1));
    script.end_of(0, &first(6, bits(7, 8190)));
    script.show();
}

fn count_wrap(script: &mut Script) {
    for (last_count, count) in [(16_383, 0), (16_383, 1), (0, 16_383), (16_382, 16_383)] {
        script.station();
        script.held(&Held {
            count: last_count,
            ..half(0, 0, 5)
        });
        script.filled(0, 0, &last(5, count, 1));
        script.show();
    }
}

fn counter_wrap(script: &mut Script) {
    script.station();
    for (channel, last, next) in [
        (0, 16_777_215, 0),
        (1, 16_777_215, 1),
        (2, 0, 16_777_215),
        (3, 16_777_214, 16_777_215),
    ] {
        script.poke(Field::Seen, u16::from(channel), 1);
        script.poke(Field::Counter, u16::from(channel), last);
        script.next_is(channel, next);
        script.zone(channel, 2047, &[]);
    }
    script.show();
}

/// Reads of a file's octets, of one more, and of none and one at its very end and behind it.
fn read_to_the_end(script: &mut Script, slot: u16, octets: u32) {
    let end = u64::from(octets);
    script.read(slot, octets, 0);
    script.read(slot, octets + 1, 0);
    for (octets, offset) in [(1, end - 1), (2, end - 1), (0, end), (1, end), (0, end + 1)] {
        script.read(slot, octets, offset);
    }
}

fn length_12(script: &mut Script) {
    script.station();
    let octets = [0xab, 0xcf, 0x55];
    let mut packets: Vec<Vec<u8>> = [0, 1, 3, 2]
        .iter()
        .map(|&number| whole_of_bits(5, 12, &octets[..number]))
        .collect();
    packets.push(packet(5, Flags::First, 0, &start_data(12, 12)));
    packets.extend([0, 1, 2].map(|number| whole_of_bits(5, 0, &octets[..number])));
    packets.push(whole_of_bits(5, 12, &[0xab, 0xc0]));
    script.packets(0, &packets);
    read_to_the_end(script, 0, 2);
    script.read(1, 2, 0);
    script.show();
}

fn length_1_7_8_9(script: &mut Script) {
    script.station();
    let octets = [0xd7, 0xb5, 0x9e];
    let lengths = [(1, 1), (7, 1), (8, 1), (9, 2)];
    let of_length = |&(length, right): &(u16, usize)| {
        [right - 1, right, right + 1]
            .map(|number| whole_of_bits(length, u64::from(length), &octets[..number]))
    };
    let packets: Vec<Vec<u8>> = lengths.iter().flat_map(of_length).collect();
    script.packets(0, &packets);
    script.show();
    for (slot, (_, right)) in lengths.into_iter().enumerate() {
        read_to_the_end(script, slot as u16, right as u32);
    }
}

fn length_65433(script: &mut Script) {
    script.station();
    script.end_of(2, &sparse_start(5, Flags::Whole, 0, 65_433));
    script.read(0, 3, 8177);
    script.end_of(2, &sparse_start(5, Flags::Whole, 0, 65_432));
    script.show();
    for length in 65_432..=65_441 {
        script.poke(Field::SlotLength, 0, length);
        for offset in [8179, 8180, 8181] {
            script.read(0, 0, offset);
        }
    }
}

fn length_65440(script: &mut Script) {
    script.station();
    script.end_of(2, &sparse_start(5, Flags::Whole, 0, 65_440));
    script.read(0, 3, 8177);
    script.read(0, 0, 8180);
    script.read(0, 1, 8180);
    script.show();
}

fn length_65441(script: &mut Script) {
    script.station();
    script.end_of(2, &sparse_start(5, Flags::First, 0, 65_441));
    script.filled(2, 0, &packet(5, Flags::Last, 1, &[0xff]));
    for (octets, offset) in [(3, 8178), (1, 8180), (2, 8180), (0, 8181), (1, 8181)] {
        script.read(0, octets, offset);
    }
    script.end_of(2, &sparse_start(5, Flags::Whole, 0, 65_441));
    script.show();
    script.station();
    script.held(&Held {
        length: 65_441,
        ..half(0, 2, 5)
    });
    script.filled(2, 0, &last(5, 1, 2));
    script.show();
}

fn length_65448(script: &mut Script) {
    script.station();
    script.packets(2, &[first(5, 0, 65_448), last(5, 1, 1)]);
    script.read(0, 2, 8179);
    script.read(0, 1, 8181);
    script.show();
    for rest in [2, 9] {
        script.station();
        script.held(&half(0, 2, 5));
        script.filled(2, 0, &last(5, 1, rest));
        script.show();
    }
}

fn packet_lengths(script: &mut Script) {
    script.station();
    let header = |application: u16, length: u16| {
        let mut header = make::zeros(Application(application), 7)[..6].to_vec();
        header[4..].copy_from_slice(&length.to_be_bytes());
        header
    };
    for (channel, application, length) in [
        (0, 5, 8191),
        (1, 5, 8192),
        (2, 2047, 8191),
        (1, 2047, 8192),
        (3, 2016, 8191),
        (1, 2016, 8192),
        (1, 2015, 1),
        (1, 0, 0),
    ] {
        script.zone(channel, 0, &header(application, length));
    }
    let good = [
        header(2015, 2),
        vec![0; 3],
        header(2016, 0),
        vec![0],
        header(2047, 0),
        vec![0],
    ];
    script.filled(1, 0, &good.concat());
    script.show();
}

fn pointer(script: &mut Script) {
    script.station();
    script.zone(0, 883, &make::fill(884));
    script.show();
    script.zone(1, 2047, &whole(5, 1));
    script.zone(1, 0, &[whole(5, 1), make::fill(865)].concat());
    script.show();
}

/// Seven octets held of a packet of application 2016 that lacks so many, and a frame with the
/// pointer given, whose zone goes on with the packet and fill behind it.
fn carried(script: &mut Script, channel: u8, lacked: usize, pointer: u16) {
    let packet = make::zeros(Application(2016), 7 + lacked);
    script.carry(channel, &packet[..7]);
    let zone = [&packet[7..], &make::fill(884)].concat();
    script.zone(channel, pointer, &zone[..884]);
}

fn r_1(script: &mut Script) {
    script.station();
    for (channel, pointer) in [1, 0, 2, 2047].into_iter().enumerate() {
        carried(script, channel as u8, 1, pointer);
    }
    script.show();
}

fn r_883(script: &mut Script) {
    script.station();
    for (channel, pointer) in [883, 882, 2047, 0].into_iter().enumerate() {
        carried(script, channel as u8, 883, pointer);
    }
    script.show();
}

fn r_884(script: &mut Script) {
    script.station();
    for (channel, pointer) in [2047, 883, 0, 882].into_iter().enumerate() {
        carried(script, channel as u8, 884, pointer);
    }
    script.show();
}

fn r_885(script: &mut Script) {
    script.station();
    carried(script, 0, 885, 2047);
    carried(script, 2, 885, 1);
    let packet = whole(7, 874);
    script.carry(1, &packet[..7]);
    script.zone(1, 2047, &packet[7..891]);
    script.show();
    script.filled(1, 1, &packet[891..]);
    script.read(0, 874, 0);
    script.show();
}
