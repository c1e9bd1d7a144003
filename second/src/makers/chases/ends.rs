//! The ways a run ends. "The command that ends the run ... prints nothing, is not counted in n".

use super::Row;
use crate::makers::chase_script::ChaseScript;

pub const PREFIX: &str = "end-";

pub const CASES: &[Row] = &[
    (
        "end-cut-command",
        "a last command of 15 octets",
        cut_command,
    ),
    ("end-cut-letter", "a last command of one octet", cut_letter),
    (
        "end-cut-portion",
        "a hunt whose portion is one octet short",
        cut_portion,
    ),
    ("end-letter", "a letter that is not in the table", letter),
    (
        "end-letter-of-trial",
        "a letter of the other script",
        of_trial,
    ),
    ("end-letter-small-b", "a small letter", small_b),
    ("end-letter-small-h", "a small letter", small_h),
    ("end-letter-small-n", "a small letter", small_n),
    ("end-letter-small-q", "a small letter", small_q),
    ("end-long-buffer", "2,049 octets lent", long_buffer),
    (
        "end-long-portion",
        "a portion of 8,193 octets",
        long_portion,
    ),
    ("end-nothing", "no octet at all", nothing),
    (
        "end-wide-portion",
        "a portion of 2^32 - 1 octets, of which none are there",
        wide_portion,
    ),
];

/// Carried out, before what ends the run; the commands behind it are not.
fn before(script: &mut ChaseScript) {
    script.begin(1);
    let _ = script.hunt(&[0x1a]);
    script.show();
}

fn behind(script: &mut ChaseScript) {
    script.show();
    script.begin(0);
}

fn nothing(_: &mut ChaseScript) {}

fn cut_command(script: &mut ChaseScript) {
    before(script);
    script.show();
    script.octets.pop();
}

fn cut_letter(script: &mut ChaseScript) {
    before(script);
    script.octets.push(b'H');
}

fn cut_portion(script: &mut ChaseScript) {
    before(script);
    let _ = script.hunt(&[0; 20]);
    script.octets.pop();
}

fn with_letter(script: &mut ChaseScript, letter: u8) {
    before(script);
    script.command(letter, 0, 1024, 0, 0);
    behind(script);
}

fn letter(script: &mut ChaseScript) {
    with_letter(script, 0);
}

fn of_trial(script: &mut ChaseScript) {
    with_letter(script, b'M');
}

fn small_b(script: &mut ChaseScript) {
    with_letter(script, b'b');
}

fn small_h(script: &mut ChaseScript) {
    with_letter(script, b'h');
}

fn small_n(script: &mut ChaseScript) {
    with_letter(script, b'n');
}

fn small_q(script: &mut ChaseScript) {
    with_letter(script, b'q');
}

fn long_buffer(script: &mut ChaseScript) {
    before(script);
    script.command(b'N', 0, 2049, 0, 0);
    behind(script);
}

fn long_portion(script: &mut ChaseScript) {
    before(script);
    script.command(b'N', 0, 1024, 8193, 0);
    script.octets.extend([0; 8193]);
    behind(script);
}

fn wide_portion(script: &mut ChaseScript) {
    before(script);
    script.command(b'N', 0, 1024, u32::MAX, 0);
}
