//! The trial's own commands on the right side of their limits.

use super::{complete, half, Row};
use crate::makers::script::{Field, Script};
use crate::model::station::DESK_SIZE;
use crate::model::transport::BLOCK_SIZE;

pub const CASES: &[Row] = &[
    (
        "trial-ignored",
        "fields that a command does not name are ignored",
        ignored,
    ),
    ("trial-lent", "`M` is cut down to the buffers", lent),
    (
        "trial-most",
        "the greatest `S`, `F` and `R` that are carried out",
        most,
    ),
    (
        "trial-pokes",
        "`P` and `Q` past the arrays and of no field do nothing; numbers are cut to the width",
        pokes,
    ),
    (
        "trial-show",
        "`H` shows at most 8 channels and 4,096 blocks, and slots that are not held but not zero",
        show,
    ),
];

fn ignored(script: &mut Script) {
    script.command(
        b'M',
        0xff,
        0xffff,
        2 * DESK_SIZE as u32,
        4 * BLOCK_SIZE as u64,
    );
    script.command(b'S', 1, 2, u32::MAX, u64::MAX);
    script.octets.extend([0, 1]);
    script.held(&complete(0, 0, 1, 0));
    script.held(&half(1, 1, 1));
    script.command(b'F', 0xff, 900, 0, u64::MAX);
    script.command(b'H', 0xff, 0xffff, u32::MAX, u64::MAX);
    script.command(b'R', 0xff, 0, 0, 0);
    script.command(b'L', 0xff, 1, u32::MAX, u64::MAX);
    script.command(b'P', 1, 0xffff, u32::MAX, 5);
    script.command(b'Q', 0, 0xffff, u32::MAX, 0xffff_ff02);
    script.command(b'L', 0xff, 0, u32::MAX, u64::MAX);
    script.show();
}

fn lent(script: &mut Script) {
    script.command(b'M', 0, 0, u32::MAX, u64::MAX);
    script.set_up(1, &[0, 1, 2, 3, 4, 5, 6, 7]);
    script.lend(8 * DESK_SIZE, 65 * BLOCK_SIZE);
    script.set_up(1, &[0, 1, 2, 3, 4, 5, 6, 7]);
    script.no_frame();
    script.lend(9 * DESK_SIZE, 65 * BLOCK_SIZE + 1);
    script.no_frame();
    script.command(
        b'M',
        0,
        0,
        8 * DESK_SIZE as u32,
        (1 << 32) + BLOCK_SIZE as u64,
    );
    script.no_frame();
    script.lend(0, 0);
    script.show();
}

fn most(script: &mut Script) {
    script.station();
    script.set_up(1, &[0; 64]);
    script.station();
    script.unit(1200, &[7; 2048]);
    script.read(0, 16_384, 0);
    script.command(b'S', 1, 0, 0, 0);
}

/// Pokes of places and fields that are not there.
fn pokes_past(script: &mut Script) {
    let (desks, store) = (73_782, 532_351);
    for (a, place) in [
        (0, desks),
        (0, u64::MAX),
        (1, store),
        (1, u64::MAX),
        (2, 0),
        (255, 0),
    ] {
        script.command(b'P', a, 0x55, 0, place);
    }
    for a in [2, 3, 4, 5] {
        script.command(b'Q', a, 8, 0, 1);
    }
    script.command(b'Q', 7, 4096, 0, 1);
    for a in 8..=12 {
        script.command(b'Q', a, 32, 0, 1);
    }
    script.command(b'Q', 13, 0, 0, 1);
    script.command(b'Q', 255, 0, 0, 1);
}

fn pokes(script: &mut Script) {
    script.fresh(&[0, 1], 2);
    pokes_past(script);
    script.command(b'P', 1, 0x1ff, 0, 532_350);
    script.command(b'P', 1, 0x1ff, 0, 5);
    script.command(b'P', 0, 0x1ff, 0, 73_781);
    script.show();
    let wide = 0xfeed_beef_cafe_f00d;
    script.command(b'Q', 0, 9, 0, wide);
    for a in [2, 3, 4, 5, 7] {
        script.command(b'Q', a, 1, 0, wide);
    }
    for a in 8..=12 {
        script.command(b'Q', a, 31, 0, wide);
    }
    script.show();
    script.command(b'Q', 4, 1, 0, 1 << 40);
    script.command(b'Q', 4, 0, 0, 256);
    script.show();
    script.command(b'Q', 1, 77, 0, 0x101);
    script.command(b'Q', 6, 77, 0, 0x1_0001);
    script.show();
    script.lend(9 * DESK_SIZE, 65 * BLOCK_SIZE + 1);
    script.show();
    script.command(b'P', 1, 0, 0, 532_350);
    script.command(b'P', 0, 0, 0, 73_781);
}

fn show(script: &mut Script) {
    script.fresh(&[9, 8, 7], 3);
    script.poke(Field::SlotCount, 4, 1);
    script.poke(Field::Owner, 0, 5);
    script.poke(Field::Owner, 2, 5);
    script.poke(Field::Owner, 3, 5);
    script.poke(Field::Owner, 4095, 5);
    script.poke(Field::Owner, 1, 32);
    script.poke(Field::Channel, 7, 200);
    script.show();
    for (channels, blocks) in [(0, 0), (8, 4), (9, 4096), (255, 65_535), (3, 3)] {
        script.poke(Field::NumberOfChannels, 0, channels);
        script.poke(Field::NumberOfBlocks, 0, blocks);
        script.show();
    }
}
