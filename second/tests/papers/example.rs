//! 01's example frame.

use second::makers::make::{self, File, PacketFields};
use second::model::frame::Channel;
use second::model::packet::{Application, Flags};
use second::model::program;
use second::model::vectors::hexadecimal;

use crate::sha256;

#[test]
fn the_packets_are_the_printed_ones() {
    let whole = File::of(Channel(2), Application(5), 0, &[0]).packets(0);
    assert_eq!(whole.len(), 1);
    assert_eq!(
        hexadecimal(&whole[0]),
        "0005c000000c00000000000000000008005da6"
    );
    let fields = PacketFields::plain(Application(5), Flags::Whole, 0);
    let flagged = PacketFields {
        secondary_header: true,
        ..fields
    };
    let data = File::of(Channel(2), Application(5), 0, &[0]).transport_file();
    assert_eq!(
        hexadecimal(&flagged.packet(&data)),
        "0805c000000c00000000000000000008005da6"
    );
    let fill = make::fill(865);
    assert_eq!(hexadecimal(&fill[..6]), "07ffc000035a");
    assert!(fill.len() == 865 && fill[6..].iter().all(|&octet| octet == 0));
}

#[test]
fn the_frame_begins_as_printed() {
    let begins = hexadecimal(&make::example_frame(false)[..20]);
    assert_eq!(begins, "1acffc1dbf0a0ec09a0d70bc8e2953ada7bb46ce");
}

#[test]
fn the_digests_are_the_printed_ones() {
    let plain = "2475554f6c201473f4a176db0701724995fae2c60fbc8a278dc2ca4c53534a76";
    let flagged = "7cb91cf98817878f8047ace786dfb22ef6796dac7b704b06e4a521a1cc18aaab";
    assert_eq!(
        sha256::hexadecimal_digest(&make::example_frame(false)),
        plain
    );
    assert_eq!(
        sha256::hexadecimal_digest(&make::example_frame(true)),
        flagged
    );
}

fn received(input: &[u8]) -> String {
    let mut out = Vec::new();
    program::run(&mut &input[..], &mut out);
    String::from_utf8(out).expect("ASCII")
}

#[test]
fn the_program_prints_the_printed_lines() {
    let example = make::example_frame(false);
    assert_eq!(received(&example), "F 0 0 2\nE 10 5 0\nE 12 5 0\nEND 1 0\n");
    assert_eq!(received(&[]), "END 0 0\n");
    assert_eq!(received(&example[..1023]), "END 0 1023\n");
}

#[test]
fn the_program_counts_refused_frames_and_octets_left_over() {
    let example = make::example_frame(false);
    let input = [&[0; 1024], &example[..], &example[..], &[1, 2, 3]].concat();
    let lines = "F 0 4 0\nF 1 0 2\nE 10 5 0\nE 12 5 0\nF 2 0 3\nE 1 0 0\nE 10 5 1\nE 12 5 1\n";
    assert_eq!(received(&input), format!("{lines}END 3 3\n"));
}

#[test]
fn the_program_lets_no_file_go() {
    let example = make::example_frame(false);
    let out = received(&example.repeat(8));
    assert!(
        out.ends_with("F 7 0 2\nE 1 0 0\nE 9 5 0\nEND 8 0\n"),
        "{out}"
    );
}
