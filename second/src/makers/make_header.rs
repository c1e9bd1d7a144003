//! Makes LRIT files: header records, good and bad, and a data field behind them.

use crate::model::records::{NAME_SIZE, PRIMARY_SIZE, START_SIZE};

/// A record with any number in its length field.
pub fn record_of_length(kind: u8, length: u16, behind: &[u8]) -> Vec<u8> {
    [&[kind][..], &length.to_be_bytes(), behind].concat()
}

/// A record: "type, 2 octets length that counts the whole record".
pub fn record(kind: u8, behind: &[u8]) -> Vec<u8> {
    record_of_length(kind, (START_SIZE + behind.len()) as u16, behind)
}

pub fn primary(file_type: u8, header_length: u32, bits: u64) -> Vec<u8> {
    let behind = [
        &[file_type][..],
        &header_length.to_be_bytes(),
        &bits.to_be_bytes(),
    ];
    record(0, &behind.concat())
}

pub fn image(bits_a_pixel: u8, columns: u16, lines: u16, compression: u8) -> Vec<u8> {
    let behind = [
        &[bits_a_pixel][..],
        &columns.to_be_bytes(),
        &lines.to_be_bytes(),
        &[compression],
    ];
    record(1, &behind.concat())
}

/// CFAC, LFAC, COFF and LOFF behind the name, whose unused octets are 20 (001, 4.4.2.3).
pub fn navigation(name: &str, numbers: [i32; 4]) -> Vec<u8> {
    let mut behind = name.as_bytes().to_vec();
    behind.resize(NAME_SIZE, 0x20);
    behind.extend(numbers.iter().flat_map(|number| number.to_be_bytes()));
    record(2, &behind)
}

/// 000's image data function, 3; annotation, 4; ancillary text, 6.
pub fn text(kind: u8, text: &str) -> Vec<u8> {
    record(kind, text.as_bytes())
}

pub fn time(p_field: u8, days: u16, milliseconds: u32) -> Vec<u8> {
    let behind = [
        &[p_field][..],
        &days.to_be_bytes(),
        &milliseconds.to_be_bytes(),
    ];
    record(5, &behind.concat())
}

pub fn segment(number: u8, total: u8, line: u16) -> Vec<u8> {
    let behind = [&[number, total][..], &line.to_be_bytes()];
    record(128, &behind.concat())
}

/// Octet k of a data field is k modulo 251.
pub fn data(octets: usize) -> Vec<u8> {
    (0..octets).map(|k| (k % 251) as u8).collect()
}

/// A file of some records behind the primary one and a data field of whole octets.
pub fn file(file_type: u8, records: &[Vec<u8>], data: &[u8]) -> Vec<u8> {
    let behind = records.concat();
    let header_length = (PRIMARY_SIZE + behind.len()) as u32;
    let primary = primary(file_type, header_length, data.len() as u64 * 8);
    [&primary[..], &behind, data].concat()
}
