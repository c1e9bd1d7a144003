//! The ways a run ends. "The command that ends the run ... prints nothing, is not counted".

use super::{half, Row};
use crate::makers::make;
use crate::makers::script::Script;

pub const PREFIX: &str = "end-";

pub const CASES: &[Row] = &[
    (
        "end-cut-command",
        "a last command of 15 octets",
        cut_command,
    ),
    (
        "end-cut-frame",
        "a frame whose payload is one octet short",
        cut_frame,
    ),
    (
        "end-cut-set-up",
        "a set-up whose payload is one octet short",
        cut_set_up,
    ),
    ("end-letter", "a letter that is not in the table", letter),
    (
        "end-letter-D",
        "the letter D, which let an incomplete file go before request 3/14 of 02",
        letter_d,
    ),
    (
        "end-letter-D-octets",
        "the letter D, with octets behind it as behind a frame: all of them count",
        letter_d_octets,
    ),
    ("end-letter-small", "a small letter", small_letter),
    ("end-long-frame", "a frame of 2,049 octets", long_frame),
    ("end-long-list", "1,201 event numbers", long_list),
    ("end-long-read", "a read of 16,385 octets", long_read),
    ("end-long-set-up", "65 channels", long_set_up),
    ("end-nothing", "no octet at all", nothing),
    (
        "end-wide-frame",
        "a frame of 2^32 - 1 octets, of which none are there",
        wide_frame,
    ),
];

/// Carried out, before what ends the run; the commands behind it are not.
fn before(script: &mut Script) {
    script.station();
    script.show();
}

fn behind(script: &mut Script) {
    script.show();
    script.no_frame();
}

fn nothing(_: &mut Script) {}

fn cut_command(script: &mut Script) {
    before(script);
    script.show();
    script.octets.pop();
}

fn cut_frame(script: &mut Script) {
    before(script);
    script.frame(&[0; 1024]);
    script.octets.pop();
}

fn cut_set_up(script: &mut Script) {
    before(script);
    script.set_up(1, &[0, 1, 2]);
    script.octets.pop();
}

fn letter(script: &mut Script) {
    before(script);
    script.command(b'X', 0, 0, 0, 0);
    behind(script);
}

fn letter_d(script: &mut Script) {
    script.station();
    script.held(&half(1, 0, 5));
    script.show();
    script.command(b'D', 0, 1, 0, 0);
    script.let_go(1);
    behind(script);
}

fn letter_d_octets(script: &mut Script) {
    before(script);
    script.command(b'D', 0, 900, 1024, 0);
    script.octets.extend(make::example_frame(false));
    behind(script);
}

fn small_letter(script: &mut Script) {
    before(script);
    script.command(b'h', 0, 0, 0, 0);
    behind(script);
}

fn long_frame(script: &mut Script) {
    before(script);
    script.frame(&[0; 2049]);
    behind(script);
}

fn long_list(script: &mut Script) {
    before(script);
    script.unit(1201, &[]);
    behind(script);
}

fn long_read(script: &mut Script) {
    before(script);
    script.read(0, 16_385, 0);
    behind(script);
}

fn long_set_up(script: &mut Script) {
    before(script);
    script.set_up(1, &[0; 65]);
    behind(script);
}

fn wide_frame(script: &mut Script) {
    before(script);
    script.command(b'F', 0, 900, u32::MAX, 0);
}
