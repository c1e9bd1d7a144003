//! Input of one kind, by which the cost of a frame, of a decision of soundness, of a file let go, of an
//! octet hunted through, or of a file entered is counted. Asked for more frames or calls, each only goes on.

use std::io::Write;

use crate::makers::chance::Chance;
use crate::makers::clerk_script::ClerkScript;
use crate::makers::make::{self, File, PacketFields};
use crate::makers::make_catalogue::greatest;
use crate::makers::raw;
use crate::makers::script::{Field, Held, Script};
use crate::model::catalogue;
use crate::model::clerk::BUFFER_SIZE;
use crate::model::frame::{self, Channel, MARKER, ZONE_SIZE};
use crate::model::packet::{Application, Flags};
use crate::model::transport::{BLOCK_SIZE, HEADER_SIZE};

/// The seed of the loads that have octets by chance.
const LOAD_SEED: u64 = 1;

/// Prints the load of this name; false if there is none.
pub fn run(name: &str, size: usize, out: &mut dyn Write) -> bool {
    let octets = match name {
        "long" => stream_of(size, long_file),
        "files" => files(size),
        "fill" => stream_of(size, |_| make::fill(7)),
        "small" => stream_of(size, small),
        "whole" => stream_of(size, whole),
        "trial-files" => trial_of(&files(size)),
        "trial-fill" => trial_of(&stream_of(size, |_| make::fill(7))),
        "owned" => with_calls(one_file(), size, |script| script.let_go(32)),
        "sound" => with_calls(held(4096), size, |script| script.let_go(32)),
        "unsound" => with_calls(unsound(), size, |script| script.let_go(32)),
        "let-go" => with_calls(held(4096), size, |script| script.let_go(0)),
        "sound-64" => with_calls(held(64), size, |script| script.let_go(32)),
        "let-go-64" => with_calls(held(64), size, |script| script.let_go(0)),
        "abandoned-64" => with_calls(held(64), size, abandoning),
        "raw-step" => in_step(size),
        "raw-noise" => raw::quiet(&mut Chance::new(LOAD_SEED), size * frame::SIZE),
        "enter" => nearly_full(size, |script| script.enter_listed(&greatest()[1023])),
        "enter-none" => nearly_full(size, |_| {}),
        "judge" => judged(size),
        _ => return false,
    };
    let _ = out.write_all(&octets);
    true
}

/// So many frames of a channel, full of packets one behind the other.
fn frames_of(channel: u8, frames: usize, packet: impl Fn(usize) -> Vec<u8>) -> Vec<Vec<u8>> {
    let mut packets = Vec::new();
    let mut octets = 0;
    while octets < frames * ZONE_SIZE {
        packets.push(packet(packets.len()));
        octets += packets[packets.len() - 1].len();
    }
    let mut made = make::frames(1, Channel(channel), 0, &packets);
    made.truncate(frames);
    made
}

fn stream_of(frames: usize, packet: impl Fn(usize) -> Vec<u8>) -> Vec<u8> {
    frames_of(0, frames, packet).concat()
}

/// A file of seven blocks, over and over.
fn long_file(nth: usize) -> Vec<u8> {
    let file = File::of_need(Channel(0), Application(0), 7);
    file.packets(0).swap_remove(nth % 7)
}

/// A first packet with one octet of data, 9 octets in all: 98 of them fit in a frame.
fn small(nth: usize) -> Vec<u8> {
    let application = Application((nth % 98) as u16);
    PacketFields::plain(application, Flags::First, 0).packet(&[0])
}

/// A file of one octet in a whole packet, 19 octets in all: 46 of them fit in a frame.
fn whole(nth: usize) -> Vec<u8> {
    let application = Application((nth % 46) as u16);
    File::of(Channel(0), application, 0, &[0])
        .packets(0)
        .swap_remove(0)
}

/// Four channels in turn, each with one file behind the other, of 1 to 60 packets.
fn files(frames: usize) -> Vec<u8> {
    let each = frames.div_ceil(4);
    let channels: Vec<Vec<Vec<u8>>> = (0..4).map(|channel| files_of(channel, each)).collect();
    let in_turn = (0..frames).map(|index| channels[index % 4][index / 4].clone());
    in_turn.collect::<Vec<_>>().concat()
}

fn files_of(channel: u8, frames: usize) -> Vec<Vec<u8>> {
    let mut packets = Vec::new();
    let mut file = 0;
    while packets.iter().map(Vec::len).sum::<usize>() < frames * ZONE_SIZE {
        let need = 1 + (7 * file + 15 * usize::from(channel)) % 60;
        let application = Application(32 * u16::from(channel) + (file % 32) as u16);
        packets.extend(File::of_need(Channel(channel), application, need).packets(0));
        file += 1;
    }
    frames_of(channel, frames, |nth| packets[nth].clone())
}

/// A trial script: the same frames to the program's station.
fn trial_of(frames: &[u8]) -> Vec<u8> {
    let mut script = Script::new();
    script.station();
    for frame in frames.chunks(frame::SIZE) {
        script.frame(frame);
    }
    script.octets
}

/// A trial script: 32 incomplete files, poked in, that own all of so many blocks between them. Up to 64
/// blocks the store is lent as well; with more of them only calls that are not lent it can be made.
fn held(blocks: u16) -> Script {
    let mut script = Script::new();
    script.fresh(&[0], usize::from(blocks.min(64)));
    script.poke(Field::NumberOfBlocks, 0, u64::from(blocks));
    let need = blocks / 32;
    for slot in 0..32 {
        script.held(&Held {
            slot,
            channel: 0,
            application: slot,
            length: (usize::from(need) * BLOCK_SIZE - HEADER_SIZE) as u64 * 8,
            count: 0,
            accepted: 1,
            blocks: (slot * need..(slot + 1) * need).collect(),
        });
    }
    script
}

/// One incomplete file that owns all of 4,096 blocks.
fn one_file() -> Script {
    let mut script = Script::new();
    script.fresh(&[0], 64);
    script.poke(Field::NumberOfBlocks, 0, 4096);
    script.held(&Held {
        slot: 0,
        channel: 0,
        application: 0,
        length: (4096 * BLOCK_SIZE - HEADER_SIZE) as u64 * 8,
        count: 0,
        accepted: 1,
        blocks: (0..4096).collect(),
    });
    script
}

/// With no channel the first test of soundness fails, so that nothing else is looked at.
fn unsound() -> Script {
    let mut script = held(4096);
    script.poke(Field::NumberOfChannels, 0, 0);
    script
}

/// The script, and a call so often. Of slot 32 it only judges the state; of slot 0 it also lets a file go.
fn with_calls(mut script: Script, calls: usize, call: impl Fn(&mut Script)) -> Vec<u8> {
    for _ in 0..calls {
        call(&mut script);
    }
    script.octets
}

/// A frame in which each of the 32 files goes on with a count that does not follow: event 6 for each.
fn abandoning(script: &mut Script) {
    let stray =
        |application| PacketFields::plain(Application(application), Flags::Middle, 0).packet(&[0]);
    let packets: Vec<Vec<u8>> = (0..32).map(stray).collect();
    script.filled(0, 0, &packets.concat());
}

/// A raw stream of so many frames, one behind the other, with no marker but their own.
fn in_step(frames: usize) -> Vec<u8> {
    let mut chance = Chance::new(LOAD_SEED);
    (0..frames)
        .flat_map(|_| raw::frame_behind(&MARKER, &mut chance))
        .collect()
}

/// A clerk script: the catalogue of 1,023 files, all with images, on 63 channels, put into a buffer that is
/// lent whole.
fn put_nearly_full(script: &mut ClerkScript) {
    let stored = catalogue::written(&greatest()[..1023]);
    script.write(&stored);
    script.lend(BUFFER_SIZE, stored.len() as u64);
}

/// That so often, each time with some commands behind it.
fn nearly_full(times: usize, commands: impl Fn(&mut ClerkScript)) -> Vec<u8> {
    let mut script = ClerkScript::new();
    for _ in 0..times {
        put_nearly_full(&mut script);
        commands(&mut script);
    }
    script.octets
}

/// That once, and then so many reads.
fn judged(times: usize) -> Vec<u8> {
    let mut script = ClerkScript::new();
    put_nearly_full(&mut script);
    for _ in 0..times {
        script.judge();
    }
    script.octets
}
