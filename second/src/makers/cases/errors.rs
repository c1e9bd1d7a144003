//! "Errors that look reasonable": frames on which a program that makes one prints other lines.

use super::{bits, damaged, half, last, packet, sparse_start, start_data, whole, Row};
use crate::makers::make::{self, PacketFields};
use crate::makers::script::{Field, Held, Script};
use crate::model::crc;
use crate::model::frame::MARKER;
use crate::model::noise;
use crate::model::packet::{Application, Flags};

pub const CASES: &[Row] = &[
    ("error-abandon-on-bad-crc", "\"Abandoning a file on a bad CRC\": event 4 touches no file, whatever the flags", abandon_on_bad_crc),
    ("error-blocks-one-by-one", "\"Taking blocks one by one, so that a file starves halfway\": all at the opening, or event 9 and none", blocks_one_by_one),
    ("error-crc-on-fill", "\"Checking CRC on fill\", and on 2016 to 2046", crc_on_fill),
    ("error-crc-over-header", "\"Taking the CRC over the packet header\"", crc_over_header),
    ("error-derandomised-marker", "\"Derandomising the marker too\": the sequence begins behind the marker", derandomised_marker),
    ("error-old-desk", "\"Keeping an old desk after a counter gap\": the pointer fits, and still the packet is dropped", old_desk),
    ("error-pointer-2047", "\"Letting pointer 2047 mean offset 2047\": a packet at each place where it would be sought", pointer_2047),
];

fn derandomised_marker(script: &mut Script) {
    script.station();
    let good = make::example_frame(false);
    script.frame(&good);
    script.frame(&noise::exclusive_ored(&good));
    let plain = noise::exclusive_ored(&good[4..]);
    script.frame(&[&MARKER[..], &plain].concat());
    let whole = noise::exclusive_ored(&[&MARKER[..], &plain].concat());
    script.frame(&whole);
    script.frame(&[&MARKER[..], &whole[4..]].concat());
    script.show();
}

fn crc_over_header(script: &mut Script) {
    script.station();
    let good = whole(5, 1);
    let (covered, _) = good.split_at(good.len() - 2);
    let wrong = [covered, &crc::crc(covered).to_be_bytes()].concat();
    script.packets(0, &[good.clone(), wrong]);
    let fields = PacketFields::plain(Application(6), Flags::Whole, 77);
    let flagged = PacketFields {
        type_bit: true,
        secondary_header: true,
        ..fields
    };
    let data = start_data(8, 11);
    script.packets(0, &[fields.packet(&data), flagged.packet(&data)]);
    script.show();
}

fn pointer_2047(script: &mut Script) {
    script.station();
    let packet = whole(5, 1);
    script.zone(0, 2047, &packet.repeat(46));
    script.carry(0, &packet[..10]);
    script.zone(0, 2047, &packet[10..]);
    script.show();
}

fn crc_on_fill(script: &mut Script) {
    script.station();
    let mut fill = make::fill(400);
    fill[398] = 0x12;
    fill[399] = 0x34;
    let mut other = make::zeros(Application(2016), 400);
    other[399] = 0x56;
    script.filled(0, 0, &[fill, other].concat());
    let fields = PacketFields::plain(Application(2047), Flags::First, 5);
    script.packets(0, &[fields.packet(&start_data(80, 20))]);
    script.show();
}

fn abandon_on_bad_crc(script: &mut Script) {
    script.station();
    script.held(&half(0, 0, 5));
    let flags = [Flags::Middle, Flags::First, Flags::Last, Flags::Whole];
    let mut packets: Vec<Vec<u8>> = flags
        .iter()
        .map(|&flags| damaged(packet(5, flags, 1, &start_data(8, 11))))
        .collect();
    packets.push(damaged(last(5, 1, 1)));
    script.packets(0, &packets);
    script.show();
    script.filled(0, 0, &last(5, 1, 1));
    script.show();
}

fn blocks_one_by_one(script: &mut Script) {
    script.station();
    script.held(&Held {
        length: bits(5, 8190),
        blocks: vec![0, 1, 2, 3, 4],
        ..half(0, 3, 100)
    });
    script.end_of(0, &sparse_start(5, Flags::First, 0, bits(3, 1)));
    script.packets(0, &[whole(6, 1), whole(7, 1), whole(8, 1)]);
    script.show();
    script.let_go(0);
    script.poke(Field::Owner, 3, 0);
    script.packets(0, &[whole(8, 1)]);
    script.show();
}

fn old_desk(script: &mut Script) {
    script.station();
    let packet = whole(5, 40);
    let (held, rest) = packet.split_at(12);
    for (channel, lost) in [(0, 1), (1, 16_777_215), (2, 5), (3, 0)] {
        script.carry(channel, held);
        script.count_on(channel, lost);
        script.filled(channel, rest.len() as u16, rest);
    }
    script.show();
    script.carry(0, &held[..3]);
    script.count_on(0, 1);
    script.filled(0, rest.len() as u16, rest);
    script.show();
}
