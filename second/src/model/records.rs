//! The header reader: 01, Header records, and the answers 20 to 27.

use crate::model::bits::{self, Fields};

/// "fewer than 16 octets", and the length of the primary record.
pub const PRIMARY_SIZE: usize = 16;
/// "type, 2 octets length": what every record begins with.
pub const START_SIZE: usize = 3;
pub const NAME_SIZE: usize = 32;

/// The refusals of the header reader, as 01's table numbers them.
#[derive(Clone, Copy, Debug, PartialEq, Eq)]
pub enum Refusal {
    UnderSixteenOctets = 20,
    NotPrimaryFirst = 21,
    HeaderLength = 22,
    RecordLength = 23,
    FixedLength = 24,
    SeenTwice = 25,
    DataLength = 26,
    NoSuchRecord = 27,
}

/// A record: "its type, place and length".
#[derive(Clone, Copy, Debug, PartialEq, Eq)]
pub struct Record {
    pub kind: u8,
    pub place: usize,
    pub length: usize,
}

/// "Primary (type 0): type, 2 octets length, file type, 4 octets header length, 8 octets data
/// field length in bits."
#[derive(Clone, Debug, PartialEq, Eq)]
pub struct Primary {
    pub file_type: u8,
    pub header_length: u32,
    pub bits: u64,
}

/// "1 image structure, 9 (bits a pixel 1, columns 2, lines 2, compression 1)"
#[derive(Clone, Debug, PartialEq, Eq)]
pub struct Image {
    pub bits_a_pixel: u8,
    pub columns: u16,
    pub lines: u16,
    pub compression: u8,
}

/// "2 navigation, 51 (name 32, then CFAC, LFAC, COFF, LOFF, signed, 4 each)"
#[derive(Clone, Debug, PartialEq, Eq)]
pub struct Navigation {
    pub name: Vec<u8>,
    /// CFAC, LFAC, COFF and LOFF.
    pub numbers: [i64; 4],
}

/// "5 time stamp, 10 (P-field 1, days 2, milliseconds 4)"
#[derive(Clone, Debug, PartialEq, Eq)]
pub struct Time {
    pub p_field: u8,
    pub days: u16,
    pub milliseconds: u32,
}

/// "128 segment, 7 (number 1, total 1, line 2; 001 and 002)"
#[derive(Clone, Debug, PartialEq, Eq)]
pub struct Segment {
    pub number: u8,
    pub total: u8,
    pub line: u16,
}

/// "The answer holds the fixed fields or their absence".
#[derive(Clone, Debug, PartialEq, Eq)]
pub struct Header {
    pub primary: Primary,
    pub image: Option<Image>,
    pub navigation: Option<Navigation>,
    pub time: Option<Time>,
    pub segment: Option<Segment>,
}

/// The lengths that 01 fixes. "Type 0 counts as fixed too, 16"; "All other types have free
/// length from 3."
fn fixed_length(kind: u8) -> Option<usize> {
    match kind {
        0 => Some(PRIMARY_SIZE),
        1 => Some(9),
        2 => Some(51),
        5 => Some(10),
        128 => Some(7),
        _ => None,
    }
}

fn primary(file: &[u8]) -> Primary {
    let mut fields = Fields::of(&file[START_SIZE..PRIMARY_SIZE]);
    Primary {
        file_type: fields.cut(8) as u8,
        header_length: fields.cut(32) as u32,
        bits: fields.cut(64),
    }
}

/// "type, 2 octets length that counts the whole record"
fn record_at(file: &[u8], place: usize) -> Record {
    let mut fields = Fields::of(&file[place..place + START_SIZE]);
    Record {
        kind: fields.cut(8) as u8,
        place,
        length: fields.cut(16) as usize,
    }
}

/// "record under 3 octets long, or passing the header's end, or under 3 octets left for it":
/// otherwise the record.
fn whole_record(file: &[u8], place: usize, end: usize) -> Result<Record, Refusal> {
    if end - place < START_SIZE {
        return Err(Refusal::RecordLength);
    }
    let record = record_at(file, place);
    if record.length < START_SIZE || record.length > end - place {
        return Err(Refusal::RecordLength);
    }
    Ok(record)
}

/// "24 / 25 fixed length wrong / fixed type seen twice", in that order.
fn judge_fixed(record: &Record, before: &[Record]) -> Result<(), Refusal> {
    let Some(length) = fixed_length(record.kind) else {
        return Ok(());
    };
    if record.length != length {
        return Err(Refusal::FixedLength);
    }
    if before.iter().any(|other| other.kind == record.kind) {
        return Err(Refusal::SeenTwice);
    }
    Ok(())
}

/// "26 lent octets not header length plus data field bits rounded up to octets"
fn judge_data(file: &[u8], primary: &Primary) -> Result<(), Refusal> {
    let octets = bits::rounded_up_to_octets(primary.bits);
    if file.len() as u128 != u128::from(primary.header_length) + octets {
        return Err(Refusal::DataLength);
    }
    Ok(())
}

/// All records of a file in order, after the refusals 20 to 26: "23, 24, 25 are tried record by
/// record, in that order, then 26".
pub fn records(file: &[u8]) -> Result<Vec<Record>, Refusal> {
    if file.len() < PRIMARY_SIZE {
        return Err(Refusal::UnderSixteenOctets);
    }
    let first = record_at(file, 0);
    if (first.kind, first.length) != (0, PRIMARY_SIZE) {
        return Err(Refusal::NotPrimaryFirst);
    }
    let primary = primary(file);
    let end = primary.header_length as usize;
    if end < PRIMARY_SIZE || end > file.len() {
        return Err(Refusal::HeaderLength);
    }
    let mut records = vec![first];
    let mut place = PRIMARY_SIZE;
    while place < end {
        let record = whole_record(file, place, end)?;
        judge_fixed(&record, &records)?;
        records.push(record);
        place += record.length;
    }
    judge_data(file, &primary)?;
    Ok(records)
}

/// "asked for record n, from 0, the reader gives its type, place and length, or 27"
pub fn record(file: &[u8], number: usize) -> Result<Record, Refusal> {
    let records = records(file)?;
    records.get(number).copied().ok_or(Refusal::NoSuchRecord)
}

/// The header of a file, or the refusal that 01 gives.
pub fn header(file: &[u8]) -> Result<Header, Refusal> {
    let records = records(file)?;
    let fields_of = |kind| {
        let record = records.iter().find(|record| record.kind == kind)?;
        let (from, to) = (record.place + START_SIZE, record.place + record.length);
        Some(&file[from..to])
    };
    Ok(Header {
        primary: primary(file),
        image: fields_of(1).map(image),
        navigation: fields_of(2).map(navigation),
        time: fields_of(5).map(time),
        segment: fields_of(128).map(segment),
    })
}

fn image(octets: &[u8]) -> Image {
    let mut fields = Fields::of(octets);
    Image {
        bits_a_pixel: fields.cut(8) as u8,
        columns: fields.cut(16) as u16,
        lines: fields.cut(16) as u16,
        compression: fields.cut(8) as u8,
    }
}

fn navigation(octets: &[u8]) -> Navigation {
    let (name, behind) = octets.split_at(NAME_SIZE);
    let mut fields = Fields::of(behind);
    let numbers = [(); 4].map(|()| signed(fields.cut(32)));
    Navigation {
        name: name.to_vec(),
        numbers,
    }
}

/// A signed number of 32 bits: N - 2^32 where its first bit is 1 (O78).
fn signed(number: u64) -> i64 {
    let number = number as i64;
    if number < 1 << 31 {
        number
    } else {
        number - (1 << 32)
    }
}

fn time(octets: &[u8]) -> Time {
    let mut fields = Fields::of(octets);
    Time {
        p_field: fields.cut(8) as u8,
        days: fields.cut(16) as u16,
        milliseconds: fields.cut(32) as u32,
    }
}

fn segment(octets: &[u8]) -> Segment {
    let mut fields = Fields::of(octets);
    Segment {
        number: fields.cut(8) as u8,
        total: fields.cut(8) as u8,
        line: fields.cut(16) as u16,
    }
}
