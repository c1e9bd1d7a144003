//! The vectors script: single questions to the leaves of the receiver.

use std::io::Write;

use crate::model::bits::Fields;
use crate::model::crc;
use crate::model::frame::{self, Start};
use crate::model::noise;
use crate::model::packet::{self, Flags, Kind, COUNT_MODULUS};
use crate::model::records::{self, Header};
use crate::model::transport::{self, Next};

const MOST_DIGITS: usize = 2048;
/// "from (2), number (2), the number at most 1,024"
const MOST_NOISE: usize = 1024;
const NOISE_END: usize = 65_535 + MOST_NOISE;

/// Answers a script. "Octets after the last newline are not a line: they are passed over."
pub fn run(script: &[u8], out: &mut dyn Write) {
    let noise = noise::sequence(NOISE_END);
    let mut lines: Vec<&[u8]> = script.split(|&octet| octet == b'\n').collect();
    lines.pop();
    for line in lines.into_iter().filter(|line| is_question(line)) {
        let answer = answer(line, &noise).unwrap_or_else(|| "?".to_string());
        let _ = writeln!(out, "{answer}");
    }
}

/// "An empty line, and a line whose first octet is `#`, is passed over"
fn is_question(line: &[u8]) -> bool {
    !matches!(line.first(), None | Some(b'#'))
}

/// The answer to a line, none if the line is not of the form of a question.
fn answer(line: &[u8], noise: &[u8]) -> Option<String> {
    let (letter, behind) = line.split_first()?;
    let octets = octets_of_question(behind)?;
    match letter {
        b'N' => noise_answer(&octets, noise),
        b'C' => Some(format!("C {:04x}", crc::crc(&octets))),
        b'F' => frame_answer(&octets),
        b'P' => Some(packet_answer(&octets)),
        b'L' => length_answer(&octets),
        b'S' => shape_answer(&octets),
        b'W' => counter_answer(&octets),
        b'H' => Some(header_answer(&octets)),
        b'R' => record_answer(&octets),
        _ => None,
    }
}

/// "then nothing, or one space and an even number of hexadecimal digits (either case)"
fn octets_of_question(behind: &[u8]) -> Option<Vec<u8>> {
    let Some((space, digits)) = behind.split_first() else {
        return Some(Vec::new());
    };
    if *space != b' ' || digits.len() % 2 != 0 || digits.len() > MOST_DIGITS {
        return None;
    }
    digits.chunks(2).map(octet_of_digits).collect()
}

fn octet_of_digits(two: &[u8]) -> Option<u8> {
    let high = char::from(two[0]).to_digit(16)?;
    let low = char::from(two[1]).to_digit(16)?;
    u8::try_from(high * 16 + low).ok()
}

/// Lower case, two digits an octet.
pub fn hexadecimal(octets: &[u8]) -> String {
    octets.iter().map(|octet| format!("{octet:02x}")).collect()
}

fn noise_answer(octets: &[u8], noise: &[u8]) -> Option<String> {
    let mut fields = fields_of(octets, 4)?;
    let from = fields.cut(16) as usize;
    let number = fields.cut(16) as usize;
    if number > MOST_NOISE {
        return None;
    }
    let wanted = noise.get(from..from + number)?;
    Some(if number == 0 {
        "N".to_string()
    } else {
        format!("N {}", hexadecimal(wanted))
    })
}

fn frame_answer(octets: &[u8]) -> Option<String> {
    fields_of(octets, frame::HEADER_SIZE)?;
    let header = frame::header(octets);
    let meaning = match frame::start(header.pointer) {
        Start::At(offset) => format!("at {offset}"),
        Start::Refused => "refused".to_string(),
        Start::Nowhere => "none".to_string(),
    };
    let frame::Header {
        version,
        spacecraft,
        channel,
        counter,
        pointer,
    } = header;
    Some(format!(
        "F {version} {spacecraft} {} {counter} {pointer} {meaning}",
        channel.0
    ))
}

fn packet_answer(octets: &[u8]) -> String {
    let Some(six) = octets.get(..packet::HEADER_SIZE) else {
        return "P short".to_string();
    };
    let header = packet::header(six);
    if header.is_bad() {
        return "P bad".to_string();
    }
    let kind = match header.application.kind() {
        Kind::File => "file",
        Kind::Other => "other",
        Kind::Fill => "fill",
    };
    let (flags, size) = (header.flags.number(), header.size());
    format!(
        "P good {} {kind} {flags} {} {size}",
        header.application.0, header.count
    )
}

fn length_answer(octets: &[u8]) -> Option<String> {
    let length = fields_of(octets, 8)?.cut(64);
    if !transport::is_good_length(length) {
        return Some("L bad".to_string());
    }
    Some(format!(
        "L {} {}",
        transport::need(length),
        transport::rest(length)
    ))
}

fn shape_answer(octets: &[u8]) -> Option<String> {
    let mut fields = fields_of(octets, 17)?;
    let flags = Flags::of(fields.cut(8))?;
    let next = Next {
        octets: fields.cut(16) as usize,
        length: fields.cut(64),
        accepted: fields.cut(16) as u16,
        last_count: fields.cut(16) as u16,
        count: fields.cut(16) as u16,
    };
    if next.last_count >= COUNT_MODULUS || next.count >= COUNT_MODULUS {
        return None;
    }
    if !transport::is_good_length(next.length) {
        return Some("S bad".to_string());
    }
    Some(format!("S {}", u8::from(next.has_shape(flags))))
}

fn counter_answer(octets: &[u8]) -> Option<String> {
    let mut fields = fields_of(octets, 6)?;
    let last = fields.cut(24) as u32;
    let next = fields.cut(24) as u32;
    Some(format!(
        "W {}",
        u8::from(frame::counter_follows(last, next))
    ))
}

fn header_answer(file: &[u8]) -> String {
    match records::header(file) {
        Ok(header) => format!("H 0{}", parts_of_header(&header).concat()),
        Err(refusal) => format!("H {}", refusal as u16),
    }
}

/// The primary fields, and those of each record that is present.
fn parts_of_header(header: &Header) -> Vec<String> {
    let primary = &header.primary;
    let (file_type, length, bits) = (primary.file_type, primary.header_length, primary.bits);
    let image = header.image.as_ref().map(|image| {
        let (bits, columns, lines) = (image.bits_a_pixel, image.columns, image.lines);
        format!(" image {bits} {columns} {lines} {}", image.compression)
    });
    let navigation = header.navigation.as_ref().map(|navigation| {
        let [cfac, lfac, coff, loff] = navigation.numbers;
        let name = hexadecimal(&navigation.name);
        format!(" navigation {name} {cfac} {lfac} {coff} {loff}")
    });
    let time = header.time.as_ref().map(|time| {
        let (p_field, days) = (time.p_field, time.days);
        format!(" time {p_field} {days} {}", time.milliseconds)
    });
    let segment = header.segment.as_ref().map(|segment| {
        let (number, total) = (segment.number, segment.total);
        format!(" segment {number} {total} {}", segment.line)
    });
    let parts = [image, navigation, time, segment].into_iter().flatten();
    [format!(" primary {file_type} {length} {bits}")]
        .into_iter()
        .chain(parts)
        .collect()
}

/// Two octets n, then the octets of a file.
fn record_answer(octets: &[u8]) -> Option<String> {
    let number = Fields::of(octets.get(..2)?).cut(16) as usize;
    Some(match records::record(&octets[2..], number) {
        Ok(record) => format!("R 0 {} {} {}", record.kind, record.place, record.length),
        Err(refusal) => format!("R {}", refusal as u16),
    })
}

/// The fields of a question of exactly so many octets.
fn fields_of(octets: &[u8], number: usize) -> Option<Fields> {
    (octets.len() == number).then(|| Fields::of(octets))
}
