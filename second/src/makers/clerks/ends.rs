//! The ways a run ends. "The command that ends the run ... prints nothing, is not counted in n".

use super::{four, text, Row};
use crate::makers::clerk_script::ClerkScript;

pub const PREFIX: &str = "end-";

pub const CASES: &[Row] = &[
    (
        "end-cut-command",
        "a last command of 15 octets",
        cut_command,
    ),
    (
        "end-cut-file",
        "an enter whose file is one octet short",
        cut_file,
    ),
    ("end-cut-letter", "a last command of one octet", cut_letter),
    (
        "end-cut-write",
        "a `W` whose octets are one short",
        cut_write,
    ),
    ("end-letter", "a letter that is not in the table", letter),
    (
        "end-letter-others",
        "a letter of the other scripts",
        of_trial,
    ),
    ("end-letter-small-b", "a small letter", small_b),
    ("end-letter-small-c", "a small letter", small_c),
    ("end-letter-small-e", "a small letter", small_e),
    ("end-letter-small-f", "a small letter", small_f),
    ("end-letter-small-h", "a small letter", small_h),
    ("end-letter-small-i", "a small letter", small_i),
    ("end-letter-small-j", "a small letter", small_j),
    ("end-letter-small-m", "a small letter", small_m),
    ("end-letter-small-p", "a small letter", small_p),
    ("end-letter-small-w", "a small letter", small_w),
    (
        "end-long-write",
        "a `W` of 32,769 octets, which are there",
        long_write,
    ),
    ("end-nothing", "no octet at all", nothing),
    (
        "end-wide-write",
        "a `W` of 2^32 - 1 octets, of which none are there",
        wide_write,
    ),
];

/// Carried out, before what ends the run; the commands behind it are not.
fn before(script: &mut ClerkScript) {
    script.holds_list(&four());
    script.judge();
    script.show();
}

fn behind(script: &mut ClerkScript) {
    script.show();
    script.begin();
}

fn nothing(_: &mut ClerkScript) {}

fn cut_command(script: &mut ClerkScript) {
    before(script);
    script.show();
    script.octets.pop();
}

fn cut_letter(script: &mut ClerkScript) {
    before(script);
    script.octets.push(b'H');
}

fn cut_file(script: &mut ClerkScript) {
    before(script);
    script.enter_listed(&text());
    script.octets.pop();
}

fn cut_write(script: &mut ClerkScript) {
    before(script);
    script.write(&[7; 40]);
    script.octets.pop();
}

fn with_letter(script: &mut ClerkScript, letter: u8) {
    before(script);
    script.command(letter, 0, 0, 0, 0);
    behind(script);
}

fn letter(script: &mut ClerkScript) {
    with_letter(script, 0);
}

fn of_trial(script: &mut ClerkScript) {
    with_letter(script, b'S');
    script.command(b'N', 0, 0, 0, 0);
}

fn small_b(script: &mut ClerkScript) {
    with_letter(script, b'b');
}

fn small_c(script: &mut ClerkScript) {
    with_letter(script, b'c');
}

fn small_e(script: &mut ClerkScript) {
    with_letter(script, b'e');
}

fn small_f(script: &mut ClerkScript) {
    with_letter(script, b'f');
}

fn small_h(script: &mut ClerkScript) {
    with_letter(script, b'h');
}

fn small_i(script: &mut ClerkScript) {
    with_letter(script, b'i');
}

fn small_j(script: &mut ClerkScript) {
    with_letter(script, b'j');
}

fn small_m(script: &mut ClerkScript) {
    with_letter(script, b'm');
}

fn small_p(script: &mut ClerkScript) {
    with_letter(script, b'p');
}

fn small_w(script: &mut ClerkScript) {
    with_letter(script, b'w');
}

fn long_write(script: &mut ClerkScript) {
    before(script);
    script.write(&vec![0; 32_769]);
    behind(script);
}

fn wide_write(script: &mut ClerkScript) {
    before(script);
    script.command(b'W', 0, 0, u32::MAX, 0);
}
