//! What is held from frame to frame, and where zones end.

use super::{octets, packet, start_data, whole, Row};
use crate::makers::make;
use crate::makers::script::Script;
use crate::model::packet::{Application, Flags};

pub const CASES: &[Row] = &[
    ("desk-1-to-5-bad", "1 to 5 octets held whose header turns out bad: event 3, and reading begins at the pointer, also where octets are read again", few_bad),
    ("desk-1-to-5-good", "1 to 5 octets held whose header turns out good: the packet is judged when whole", few_good),
    ("desk-1-to-5-pointer", "1 to 5 octets held, the header good and the pointer wrong: event 2", few_pointer),
    ("desk-channels", "each channel has its own desk and counter; frames of others between change nothing", channels),
    ("desk-fill-carried", "fill and 2016 to 2046 are carried on by the same rule", fill_carried),
    ("desk-zeros-after", "octets behind the held ones are zero after a longer packet was held", zeros_after),
    ("zone-ends-with-packet", "a packet that ends with the zone leaves nothing held; octets before the next pointer pass silently", ends_exactly),
    ("zone-left-5", "five octets left at the zone's end are held unjudged, even of a wrong version", five_left),
    ("zone-left-6", "six octets left at the zone's end are judged: good ones held, bad ones event 3", six_left),
    ("zone-left-each", "1 to 7 octets left at the zone's end", each_left),
];

fn few_good(script: &mut Script) {
    script.station();
    let packet = whole(5, 4);
    for held in 1..=5 {
        script.carry(0, &packet[..held]);
        let pointer = packet.len() - held;
        script.filled(0, pointer as u16, &packet[held..]);
    }
    script.show();
}

fn few_bad(script: &mut Script) {
    let wrong_version = [0x20, 5, 0xc0, 0, 0, 9];
    let too_long = [0, 5, 0xc0, 0, 0x20, 0];
    let too_short = [0, 5, 0xc0, 0, 0, 1];
    for (held, header, pointer) in [
        (1, wrong_version, 5),
        (2, too_long, 4),
        (3, too_short, 2047),
        (4, too_long, 1),
        (5, too_short, 0),
    ] {
        script.station();
        script.carry(0, &header[..held]);
        script.filled(0, pointer, &[&header[held..], &whole(7, 2)].concat());
        script.show();
    }
    script.carry(1, &[0x20]);
    script.filled(1, 0, &whole(8, 1));
    script.show();
}

fn few_pointer(script: &mut Script) {
    let packet = whole(5, 4);
    for (held, pointer) in [(1, 0), (3, 2047), (5, 18), (5, 16)] {
        script.station();
        script.carry(0, &packet[..held]);
        script.filled(0, pointer, &packet[held..]);
        script.show();
    }
}

fn channels(script: &mut Script) {
    script.station();
    let packets = [whole(5, 30), whole(5, 31), whole(5, 32), whole(5, 33)];
    for (channel, packet) in packets.iter().enumerate() {
        script.carry(channel as u8, &packet[..8 + channel]);
    }
    for channel in [2, 0, 3, 1] {
        let rest = &packets[channel][8 + channel..];
        script.filled(channel as u8, rest.len() as u16, rest);
        script.show();
    }
}

fn fill_carried(script: &mut Script) {
    script.station();
    for (channel, application, pointer) in [
        (0, 2047, 40),
        (1, 2016, 40),
        (2, 2046, 40),
        (0, 2047, 41),
        (1, 2016, 2047),
    ] {
        let packet = make::zeros(Application(application), 50);
        script.carry(channel, &packet[..10]);
        script.filled(channel, pointer, &packet[10..]);
    }
    script.show();
}

fn zeros_after(script: &mut Script) {
    script.station();
    let long = packet(5, Flags::Whole, 0, &octets(800));
    script.hold(0, &long[..700]);
    script.show();
    script.hold(0, &[0xff; 3]);
    script.show();
    script.zone(0, 2047, &[]);
    script.show();
    script.hold(0, &long[..700]);
    script.count_on(0, 1);
    script.zone(0, 2047, &[]);
    script.show();
}

fn ends_exactly(script: &mut Script) {
    script.station();
    let exact = packet(5, Flags::Whole, 0, &start_data(866 * 8, 876));
    script.zone(0, 0, &exact);
    script.show();
    script.zone(0, 0, &[whole(6, 1), make::fill(865)].concat());
    script.zone(0, 0, &make::fill(884));
    let rubbish = [0xff; 100];
    script.filled(0, 100, &[&rubbish[..], &whole(7, 1)].concat());
    script.show();
}

fn five_left(script: &mut Script) {
    script.station();
    script.hold(0, &[0xff; 5]);
    script.show();
    script.zone(0, 2047, &[]);
    script.hold(1, &[0x20, 5, 0xc0, 0, 0]);
    script.zone(1, 0, &make::fill(884));
    script.show();
}

fn six_left(script: &mut Script) {
    script.station();
    let good = whole(5, 4);
    script.hold(0, &good[..6]);
    script.show();
    script.filled(0, good.len() as u16 - 6, &good[6..]);
    for bad in [
        [0x20, 5, 0xc0, 0, 0, 9],
        [0, 5, 0xc0, 0, 0x20, 0],
        [0, 5, 0xc0, 0, 0, 1],
        [7, 0xff, 0xc0, 0, 0xff, 0xff],
    ] {
        script.hold(1, &bad);
    }
    script.show();
    let other = [7, 0xff, 0xc0, 0, 0, 0];
    script.hold(2, &other);
    script.show();
    script.filled(2, 1, &[0]);
    script.show();
}

fn each_left(script: &mut Script) {
    script.fresh(&[0, 1, 2, 3, 4, 5, 6, 7], 2);
    let packet = make::fill(100);
    for left in 1..=7 {
        script.hold(left as u8, &packet[..left]);
    }
    script.show();
}
