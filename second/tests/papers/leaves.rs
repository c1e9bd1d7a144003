//! The published vectors of the leaves.

use second::model::crc::crc;
use second::model::frame::{self, Channel, Start};
use second::model::noise;
use second::model::packet::{self, Application, Flags, Kind};
use second::model::transport;
use second::model::vectors::hexadecimal;

const NOISE: &str = concat!(
    "ff480ec09a0d70bc8e2c93ada7b746ce5a977dcc32a2bf3e0a10f18894cdeab1fe901d81341ae1791c59275b4f6e8d9c",
    "b52efb9865457e7c1421e311299bd563fd203b026835c2f238b24eb69edd1b396a5df730ca8afcf82843c6225337aac7",
    "fa407604d06b85e471649d6d3dba3672d4bbee619515f9f050878c44a66f558ff480ec09a0d70bc8e2c93ada7b746ce5",
    "a977dcc32a2bf3e0a10f18894cdeab1fe901d81341ae1791c59275b4f6e8d9cb52efb9865457e7c1421e311299bd563f",
    "d203b026835c2f238b24eb69edd1b396a5df730ca8afcf82843c6225337aac7fa407604d06b85e471649d6d3dba3672d",
    "4bbee619515f9f050878c44a66f558",
);

#[test]
fn the_sequence_is_the_printed_table() {
    assert_eq!(hexadecimal(&noise::sequence(255)), NOISE);
}

#[test]
fn the_sequence_repeats_after_255_octets_and_not_sooner() {
    let sequence = noise::sequence(1020);
    assert!((0..1020 - 255).all(|place| sequence[place] == sequence[place + 255]));
    for period in 1..255 {
        assert!(
            (0..255).any(|place| sequence[place] != sequence[place + period]),
            "{period}"
        );
    }
}

#[test]
fn crcs() {
    assert_eq!(crc(&[]), 0xffff);
    assert_eq!(crc(&[0xff]), 0xff00);
    assert_eq!(crc(&[0xff, 0xff]), 0x0000);
    assert_eq!(crc(&[0x00]), 0xe1f0);
    assert_eq!(crc(&[0; 10]), 0xe139);
    assert_eq!(crc(&[0; 11]), 0xd40f);
    assert_eq!(crc(b"123456789"), 0x29b1);
    assert_eq!(
        crc(&[0; 11].into_iter().chain([0xd4, 0x0f]).collect::<Vec<u8>>()),
        0
    );
}

fn first_octets(two: [u8; 2]) -> (u8, u8, u8) {
    let header = frame::header(&[two[0], two[1], 0, 0, 0, 0, 0, 0]);
    (header.version, header.spacecraft, header.channel.0)
}

#[test]
fn frame_headers() {
    assert_eq!(first_octets([0x40, 0x42]), (1, 1, 2));
    assert_eq!(first_octets([0x70, 0xc0]), (1, 0xc3, 0));
    assert_eq!(first_octets([0x70, 0xff]), (1, 0xc3, 63));
    assert_eq!(first_octets([0x40, 0x00]), (1, 0, 0));
    assert_eq!(first_octets([0x40, 0x3f]), (1, 0, 63));
    assert_eq!(first_octets([0x7f, 0xfe]), (1, 255, 62));
    let header = frame::header(&[0x40, 0x42, 0x12, 0x34, 0x56, 0xff, 0xfb, 0x73]);
    assert_eq!(
        (header.channel, header.counter, header.pointer),
        (Channel(2), 0x123456, 883)
    );
}

#[test]
fn pointers() {
    assert_eq!(frame::start(883), Start::At(883));
    assert_eq!(frame::start(884), Start::Refused);
    assert_eq!(frame::start(2046), Start::Refused);
    assert_eq!(frame::start(2047), Start::Nowhere);
    assert_eq!(frame::start_wanted(883), Start::At(883));
    assert_eq!(frame::start_wanted(884), Start::Nowhere);
}

#[test]
fn counts_and_counters_wrap() {
    assert!(packet::count_follows(16_383, 0));
    assert!(packet::count_follows(0, 1));
    assert!(!packet::count_follows(0, 0));
    assert!(!packet::count_follows(16_383, 1));
    assert!(frame::counter_follows(16_777_215, 0));
    assert!(!frame::counter_follows(16_777_215, 16_777_215));
    assert!(!frame::counter_follows(5, 4));
}

fn is_bad(application: u16, length: u16) -> bool {
    let [high, low] = application.to_be_bytes();
    let [l0, l1] = length.to_be_bytes();
    packet::header(&[high, low, 0, 0, l0, l1]).is_bad()
}

#[test]
fn packet_headers() {
    assert!(!is_bad(0, 8191) && is_bad(0, 8192));
    assert!(is_bad(2015, 1) && !is_bad(2015, 2));
    assert!(!is_bad(2047, 0) && !is_bad(2016, 0) && is_bad(2047, 8192));
    let header = packet::header(&[0x1d, 0x67, 0x7f, 0xff, 0x00, 0x0c]);
    assert_eq!(
        (header.version, header.application),
        (0, Application(0x567))
    );
    assert_eq!(
        (header.flags, header.count, header.size()),
        (Flags::First, 0x3fff, 19)
    );
    assert!(packet::header(&[0x20, 0, 0, 0, 0, 9]).is_bad());
    let kinds = [2015, 2016, 2046, 2047].map(|number| Application(number).kind());
    assert_eq!(kinds, [Kind::File, Kind::Other, Kind::Other, Kind::Fill]);
}

#[test]
fn needs() {
    let greatest = [65_440, 130_960, 196_480, 262_000, 327_520, 393_040, 458_560];
    for (place, &length) in greatest.iter().enumerate() {
        let need = place as u128 + 1;
        assert_eq!(need_and_rest(length), (need, 8190));
        assert_eq!(need_and_rest(length + 8), (need + 1, 1));
        assert_eq!(need_and_rest(length - 7), (need, 8190));
        assert_eq!(need_and_rest(length - 8), (need, 8189));
        assert_eq!(need_and_rest(length + 1), (need + 1, 1));
        assert_eq!(need_and_rest(length + 9), (need + 1, 2));
    }
    assert_eq!(transport::need(8), 1);
    assert_eq!(transport::need(268_369_840), 4096);
    assert_eq!(transport::need(268_369_848), 4097);
    assert_eq!(need_and_rest(u64::MAX - 7), (281_543_712_968_706, 11));
}

fn need_and_rest(length: u64) -> (u128, u128) {
    (transport::need(length), transport::rest(length))
}

/// 02, 2/14: "Any L from 1 is good".
#[test]
fn good_lengths() {
    assert!(!transport::is_good_length(0));
    for length in [1, 7, 8, 9, 12, 65_441, u64::MAX - 7, u64::MAX] {
        assert!(transport::is_good_length(length), "{length}");
    }
}

/// 02, 2/14: "L/8 is rounded up wherever 01 has it", "N = 1 with 12 octets of data".
#[test]
fn lengths_that_are_no_multiple_of_8() {
    // 12 bits are one octet and a half, so two of them, and 10 + 2 = 12.
    assert_eq!(transport::file_octets(12), 2);
    assert_eq!(need_and_rest(12), (1, 12));
    assert!(transport::whole_has_shape(12, 12));
    assert!(!transport::whole_has_shape(11, 12) && !transport::whole_has_shape(13, 12));
    for (length, octets) in [(1, 1), (7, 1), (8, 1), (9, 2), (16, 2), (17, 3)] {
        assert_eq!(transport::file_octets(length), octets, "{length}");
        assert_eq!(need_and_rest(length), (1, 10 + octets), "{length}");
    }
    // 65,440 / 8 = 8,180, so 8,181 octets, and 10 + 8,181 = 8,190 + 1.
    assert_eq!(need_and_rest(65_441), (2, 1));
    assert!(transport::first_has_shape(8190, 65_441));
    assert!(!transport::whole_has_shape(8190, 65_441));
    for length in 65_433..=65_440 {
        assert!(transport::whole_has_shape(8190, length), "{length}");
    }
    // 130,960 / 8 = 16,370, so 16,371 octets, and 10 + 16,371 = 2 x 8,190 + 1.
    assert_eq!(need_and_rest(130_961), (3, 1));
    // 268,369,840 / 8 = 33,546,230, so 33,546,231 octets, and 10 more are 4,096 x 8,190 + 1.
    assert_eq!(need_and_rest(268_369_841), (4097, 1));
    // 2^61 octets, and 10 + 2^61 = 281,543,712,968,705 x 8,190 + 12.
    for length in [u64::MAX - 6, u64::MAX] {
        assert_eq!(transport::file_octets(length), 1 << 61);
        assert_eq!(need_and_rest(length), (281_543_712_968_706, 12));
        assert!(transport::first_has_shape(8190, length));
    }
}
