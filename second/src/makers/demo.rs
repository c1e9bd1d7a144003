//! The demo: a short night over a dish, in which everything happens that a newcomer should see.
//!
//! Channel 0 sends a visible picture in three packets, then the first packet of the next one.
//! Channel 1 sends an infrared picture in two packets, of which the second is lost with its
//! frame, then another in one. Channel 2 sends a text, damaged and then once more.

use std::io::Write;

use crate::makers::make::{self, File};
use crate::makers::make_header::{file, image, navigation, segment, text, time};
use crate::model::frame::Channel;
use crate::model::packet::Application;

const SPACECRAFT: u8 = 1;
const VISIBLE: Application = Application(0);
const INFRARED: Application = Application(32);
const TEXT: Application = Application(64);

/// 12 September 2000, 06:17 UTC: day 15,595 since 1958.
fn made() -> Vec<u8> {
    time(0x40, 15_595, (6 * 60 + 17) * 60_000)
}

/// A picture that grows brighter to the south and east, with a swirl of cloud in it.
fn pixels(columns: u16, lines: u16) -> Vec<u8> {
    let pixel = |line: u32, column: u32| {
        let (x, y) = (column.abs_diff(60), line.abs_diff(40));
        let cloud = if (x * x + y * y) / 64 % 5 == 0 { 90 } else { 0 };
        ((column + line) % 160 + cloud) as u8
    };
    (0..u32::from(lines))
        .flat_map(|line| (0..u32::from(columns)).map(move |column| pixel(line, column)))
        .collect()
}

/// An image file with the records 0, 1, 2, 4, 5 and 128, one octet a pixel.
fn picture(name: &str, columns: u16, lines: u16, number: u8, first_line: u16) -> Vec<u8> {
    let numbers = [10_233_128, -10_233_128, 1375, 1375];
    let records = [
        image(8, columns, lines, 0),
        navigation("GEOS(128.2)", numbers),
        text(4, name),
        made(),
        segment(number, 2, first_line),
    ];
    file(0, &records, &pixels(columns, lines))
}

pub fn bulletin() -> Vec<u8> {
    let words = "Northerly gale, force 8, in the outer sounds from noon.\r\n\
                 The boats to the eight inner islands sail; the other three wait.\r\n";
    let records = [text(4, "ADD_AMV_00_20000912_052500_00.lrit"), made()];
    file(2, &records, words.as_bytes())
}

fn packets(channel: u8, application: Application, counter: u16, octets: &[u8]) -> Vec<Vec<u8>> {
    let file = File::of(Channel(channel), application, counter, octets);
    file.packets(counter * 10)
}

fn frames(channel: u8, first_counter: u32, packets: &[Vec<u8>]) -> Vec<Vec<u8>> {
    make::frames(SPACECRAFT, Channel(channel), first_counter, packets)
}

pub fn first_picture() -> Vec<u8> {
    picture("IMG_FD_01_VIS_20000912_061700_01.lrit", 160, 105, 1, 1)
}

fn visible() -> Vec<Vec<u8>> {
    let one = first_picture();
    let two = picture("IMG_FD_01_VIS_20000912_061700_02.lrit", 160, 105, 2, 106);
    let mut sent = packets(0, VISIBLE, 0, &one);
    sent.extend(packets(0, VISIBLE, 1, &two).into_iter().take(1));
    frames(0, 16_777_200, &sent)
}

fn infrared() -> Vec<Vec<u8>> {
    let one = picture("IMG_FD_01_IR1_20000912_061700_01.lrit", 120, 70, 1, 1);
    let two = picture("IMG_FD_01_IR1_20000912_061700_02.lrit", 120, 5, 2, 71);
    let cut = packets(1, INFRARED, 30, &one);
    let mut sent = frames(1, 500, &cut[..1]);
    let lost = frames(1, 500 + sent.len() as u32, &cut[1..]);
    let next = 500 + (sent.len() + lost.len()) as u32;
    sent.extend(frames(1, next, &packets(1, INFRARED, 31, &two)));
    sent
}

fn texts() -> Vec<Vec<u8>> {
    let good = packets(2, TEXT, 255, &bulletin());
    let mut damaged = good.clone();
    damaged[0][90] ^= 0x20;
    [frames(2, 7, &damaged), frames(2, 8, &good)].concat()
}

/// Two frames of channel 0 and one of channel 1 in turn, the others among them.
pub fn stream() -> Vec<Vec<u8>> {
    let (visible, infrared, texts) = (visible(), infrared(), texts());
    let fill = make::frame(SPACECRAFT, Channel(63), 0, 0, &[]);
    let mut sent = Vec::new();
    for turn in 0..visible.len().div_ceil(2) {
        sent.extend(visible.iter().skip(2 * turn).take(2).cloned());
        sent.extend(infrared.get(turn).cloned());
        match turn {
            3 => sent.push(texts[0].clone()),
            5 => sent.push(fill.clone()),
            6 => sent.push(texts[1].clone()),
            _ => {}
        }
    }
    sent
}

pub fn run(out: &mut dyn Write) {
    let _ = out.write_all(&stream().concat());
}
