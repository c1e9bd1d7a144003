//! The questions about header records in the vectors script: the records that the papers work
//! out, and headers damaged on both sides of each line.

use std::io::Write;

use crate::makers::make_header::{
    data, file, image, navigation, primary, record, record_of_length, segment, text, time,
};
use crate::model::records::PRIMARY_SIZE;

/// The most octets of a question.
const MOST: usize = 1024;
/// 2332 UTC on 31 December 2000: 40 3D59 050CB980.
const MADE: (u8, u16, u32) = (0x40, 0x3d59, 0x050c_b980);

/// The lines of a script.
struct Script {
    lines: String,
}

impl Script {
    fn note(&mut self, words: &str) {
        self.lines.push_str(&format!("# {words}\n"));
    }

    fn ask(&mut self, letter: char, octets: &[u8]) {
        let digits: String = octets.iter().map(|octet| format!("{octet:02X}")).collect();
        let space = if digits.is_empty() { "" } else { " " };
        self.lines.push_str(&format!("{letter}{space}{digits}\n"));
    }

    fn header(&mut self, file: &[u8]) {
        self.ask('H', file);
    }

    fn record(&mut self, number: u16, file: &[u8]) {
        self.ask('R', &[&number.to_be_bytes()[..], file].concat());
    }

    /// The header, then every record and one past the last.
    fn all(&mut self, file: &[u8], records: usize) {
        self.header(file);
        for number in 0..=records as u16 {
            self.record(number, file);
        }
    }

    /// The header, and its first record.
    fn both(&mut self, file: &[u8]) {
        self.header(file);
        self.record(0, file);
    }
}

/// Prints the questions.
pub fn run(out: &mut dyn Write) {
    let mut script = Script {
        lines: String::new(),
    };
    script.note("H: header records; R: one record. The data fields are short: nothing ties them to columns and lines.");
    full_disk(&mut script);
    japanese(&mut script);
    korean(&mut script);
    american(&mut script);
    file_types(&mut script);
    signed_numbers(&mut script);
    free_records(&mut script);
    greatest_fields(&mut script);
    too_short(&mut script);
    first_record(&mut script);
    header_length(&mut script);
    record_length(&mut script);
    fixed_length(&mut script);
    seen_twice(&mut script);
    record_by_record(&mut script);
    data_length(&mut script);
    no_such_record(&mut script);
    let _ = out.write_all(script.lines.as_bytes());
}

fn made() -> Vec<u8> {
    time(MADE.0, MADE.1, MADE.2)
}

/// A file whose data field is one octet.
fn image_file(records: &[Vec<u8>]) -> Vec<u8> {
    file(0, records, &[0x5a])
}

fn full_disk(script: &mut Script) {
    let halftone = "$HALFTONE:=8\r_NAME:=INFRARED\r_UNIT:=KELVIN\r0:=190.00\r255:=310.00\r";
    let records = [
        image(8, 2200, 220, 0),
        navigation("GEOS(140.0)", [0, 0, 0, 0]),
        text(3, halftone),
        text(4, "IMG_DK01IR1_200012312332_001"),
        made(),
        segment(1, 10, 1),
    ];
    script.note("001, full disk: 8 bits, 2200 columns, 220 lines, 10 segments, GEOS(140.0); the annotation of 28 characters makes a record of 31;");
    script.note("time stamp 40 3D59 050CB980. Every record, and one past the last.");
    script.all(&image_file(&records), 7);
    script.note(
        "The same records in the opposite order: the answer keeps its own, the places change.",
    );
    let backwards: Vec<Vec<u8>> = records.iter().rev().cloned().collect();
    script.all(&image_file(&backwards), 7);
    script.note("Each fixed record alone, and none of them: an absent one prints nothing.");
    for kept in [
        &records[0..1],
        &records[1..2],
        &records[4..5],
        &records[5..6],
        &[],
    ] {
        script.header(&image_file(kept));
    }
}

fn japanese(script: &mut Script) {
    script.note("001, polar-stereographic: 800 columns, 800 lines, POLAR(N,135.0), not segmented: number 0, total 1.");
    let polar = image_file(&[
        image(8, 800, 800, 1),
        navigation("POLAR(N,135.0)", [1, 1, 0, 0]),
        made(),
        segment(0, 1, 1),
    ]);
    script.all(&polar, 5);
    script.note(
        "001, overlay: 1 bit a pixel; the annotation OVL_DK01 of 8 characters makes a record of 11.",
    );
    let overlay = image_file(&[
        image(1, 2200, 220, 0),
        text(3, "$OVERLAY:=1\r"),
        text(4, "OVL_DK01"),
        segment(0, 1, 1),
    ]);
    script.all(&overlay, 5);
    script.note("001, encryption key message: key header 7 (7 octets here), message header 129 (5 octets here), both of free length.");
    let key = record(7, &[0, 0, 0, 9]);
    let station = record(129, &[0x12, 0x34]);
    script.all(&file(3, &[made(), key, station], &data(16)), 4);
}

/// A segment of a picture of 002.
fn korean_segment(
    sizes: (u16, u16),
    number: u8,
    total: u8,
    line: u16,
    annotation: &str,
) -> Vec<u8> {
    image_file(&[
        image(8, sizes.0, sizes.1, 2),
        navigation("GEOS(128.2)", [10_233_128, -10_233_128, 1375, 1375]),
        text(4, annotation),
        segment(number, total, line),
    ])
}

fn korean(script: &mut Script) {
    script.note("002, GEOS(128.2): full disk 2200 x 220, lines 1, 221, ... 1981; the annotation of 37 characters makes a record of 40.");
    let name = "IMG_FD_01_VIS_20000912_061700_03.LRIT";
    for number in 1..=10 {
        let line = 1 + 220 * (u16::from(number) - 1);
        script.header(&korean_segment((2200, 220), number, 10, line, name));
    }
    script.all(&korean_segment((2200, 220), 3, 10, 441, name), 5);
    script.note("ENH 1547 x 309 or 308, lines 1, 310, 619, 927; LSH 1547 x 318, lines 1, 319.");
    for (number, lines, line) in [(1, 309, 1), (2, 309, 310), (3, 308, 619), (4, 308, 927)] {
        script.header(&korean_segment((1547, lines), number, 4, line, name));
    }
    for (number, line) in [(1, 1), (2, 319)] {
        script.header(&korean_segment((1547, 318), number, 2, line, name));
    }
    script.note("APNH 810 x 611, not segmented: 36 characters, record 39. Texts of 34 and 37 characters: records 37 and 40.");
    let apnh = "IMG_APNH_01_IR1_20000912_061700.lrit";
    script.all(&korean_segment((810, 611), 0, 1, 1, apnh), 5);
    let vectors = text(4, "ADD_AMV_00_20000912_052500_00.lrit");
    script.all(&file(2, &[vectors], b"text"), 2);
    let keys = text(4, "ADD_ENCMEG_00_20000912_052500_00.lrit");
    script.all(&file(3, &[keys], b"keys"), 2);
}

fn american(script: &mut Script) {
    script.note("003, table 7: the sizes of GOES images and of environmental products.");
    let sizes = [
        (1396, 698),
        (1396, 740),
        (1396, 690),
        (1200, 900),
        (1200, 804),
    ];
    for (columns, lines) in sizes {
        script.header(&image_file(&[image(8, columns, lines, 1)]));
    }
    script
        .note("Ancillary text is type 6 (000; 003 prints 7). Text files have no image structure.");
    let ancillary = text(6, "Time of frame start:=2000/366/23:32;");
    let named = text(4, "DATAFILENAME.txt");
    script.all(&file(2, &[named, ancillary, made()], b"A text."), 4);
    script.note("Record 128 of 8 octets (003) and of 17 (004) is not of 001's and 002's length; 129 of 14 (004), 130 and 131 are free.");
    script.both(&image_file(&[record(128, &[1, 10, 0, 1, 0])]));
    script.both(&image_file(&[record(128, &[0; 14])]));
    let noaa = record(129, b"NOAA\x00\x07\x00\x01\x00\x00\x01");
    let flags = record(131, &[0, 49, 16, 1]);
    script.all(&image_file(&[noaa, text(130, "fields"), flags]), 4);
}

fn file_types(script: &mut Script) {
    script.note("File types 0 to 3, 4, 127, 128 to 131 and 255: none is judged.");
    for file_type in [0, 1, 2, 3, 4, 127, 128, 129, 130, 131, 255] {
        script.header(&file(file_type, &[], &[]));
    }
}

fn signed_numbers(script: &mut Script) {
    script
        .note("CFAC, LFAC, COFF and LOFF are signed: -1, -2^31, 2^31-1 and others in each place.");
    let (least, greatest) = (i32::MIN, i32::MAX);
    for numbers in [
        [-1, 0, 0, 0],
        [0, -1, 0, 0],
        [0, 0, -1, 0],
        [0, 0, 0, -1],
        [least, greatest, least, greatest],
        [greatest, least, greatest, least],
        [10_233_128, -10_233_128, 1375, -1375],
        [1, 256, 65_536, 16_777_216],
        [-256, -65_536, -16_777_216, -128],
    ] {
        script.header(&image_file(&[navigation("GEOS(140.0)", numbers)]));
    }
    script.note("A name of 32 characters, of none (spaces), of octets that are no characters.");
    script.header(&image_file(&[navigation(
        "ABCDEFGHIJKLMNOPQRSTUVWXYZ012345",
        [1; 4],
    )]));
    script.header(&image_file(&[navigation("", [1; 4])]));
    let odd: Vec<u8> = (0..48).map(|k| 0xff - k).collect();
    script.header(&image_file(&[record(2, &odd)]));
}

fn free_records(script: &mut Script) {
    script.note("\"All other types have free length from 3\": records of 3 and more; a free type may come again.");
    let free: Vec<Vec<u8>> = [3, 3, 4, 4, 6, 6, 7, 7, 8, 127, 129, 129, 255, 255]
        .iter()
        .map(|&kind| record(kind, &data(usize::from(kind) % 5)))
        .collect();
    script.all(&file(0, &free, &[]), 15);
    script.note("336 records of 3 octets in a header of 1,024: the last, one past it, and numbers whose low octet would name a record.");
    let many = vec![record(3, &[]); (MOST - PRIMARY_SIZE) / 3];
    script.header(&file(0, &many, &[]));
    let fewer = file(0, &many[..335], &[]);
    for number in [0, 1, 255, 256, 334, 335, 336, 0x8000, 0xffff] {
        script.record(number, &fewer);
    }
    script.note("One record of 1,008 octets; one of 1,006 for R.");
    script.header(&file(0, &[record(6, &data(1005))], &[]));
    script.record(1, &file(0, &[record(6, &data(1003))], &[]));
}

fn greatest_fields(script: &mut Script) {
    script.note("All fields at their greatest and at 0: none is judged (also number 5 of 2 segments, 0 columns, another P-field).");
    let greatest = [
        image(255, 65_535, 65_535, 255),
        time(255, 65_535, u32::MAX),
        segment(255, 255, 65_535),
    ];
    script.header(&image_file(&greatest));
    let zero = [image(0, 0, 0, 0), time(0, 0, 0), segment(0, 0, 0)];
    script.header(&image_file(&zero));
    script.header(&image_file(&[segment(5, 2, 1), time(0x41, 1, 2)]));
    script.note("Each octet of a record other than the rest.");
    let octets: Vec<u8> = (1..=48).collect();
    let records = [
        record(1, &octets[..6]),
        record(2, &octets),
        record(5, &octets[..7]),
        record(128, &octets[..4]),
    ];
    script.header(&file(0x77, &records, &data(300)));
}

fn too_short(script: &mut Script) {
    script.note(
        "20, \"fewer than 16 octets\": 0, 1, 15; 16 are enough; also where 21 and 22 would apply.",
    );
    let good = primary(0, 16, 0);
    for octets in [0, 1, 15, 16] {
        script.both(&good[..octets]);
    }
    script.both(&[0xff; 15]);
    script.note("R with two octets and no file; with fewer than two it is no question.");
    script.record(1, &[]);
    script.ask('R', &[]);
    script.ask('R', &[0]);
    script.note("Small letters ask nothing.");
    script.ask('h', &good);
    script.ask('r', &good);
}

/// A primary record with another type and length, and one octet of data.
fn other_first(kind: u8, length: u16) -> Vec<u8> {
    let mut file = file(0, &[], &[0]);
    file[..3].copy_from_slice(&record_of_length(kind, length, &[]));
    file
}

fn first_record(script: &mut Script) {
    script.note("21, \"first record not type 0, length 16\": types 1, 5, 128, 255; lengths 0, 3, 15, 17, 272, 4096, 65535; then the right one.");
    for kind in [1, 5, 128, 255] {
        script.both(&other_first(kind, 16));
    }
    for length in [0, 3, 15, 17, 0x0110, 0x1000, 0xffff] {
        script.both(&other_first(0, length));
    }
    script.both(&other_first(0, 16));
    script.note("21 before 22.");
    let mut file = primary(0, 15, 0);
    file[2] = 17;
    script.both(&file);
}

/// A primary record alone with any header length, ended to so many octets.
fn of_header_length(header_length: u32, octets: usize) -> Vec<u8> {
    let mut file = primary(0, header_length, 0);
    file.resize(octets, 0);
    file
}

fn header_length(script: &mut Script) {
    script.note("22, \"header length under 16 or beyond the octets lent\": 0, 15, 16; 17 of 16 octets; 2^31, 2^32 - 1; numbers whose low octets would be right.");
    for length in [0, 15, 16, 17, 0x0001_0010, 0x0100_0010, 1 << 31, u32::MAX] {
        script.both(&of_header_length(length, 16));
    }
    script
        .note("A header of 30 octets: 30 lent, 29, and 29 where the last record too would be cut.");
    let whole = file(0, &[record(4, &data(11))], &[]);
    script.both(&whole);
    script.both(&whole[..29]);
    let mut beyond = file(0, &[record(4, &data(11))], &data(10));
    beyond[7] = 41;
    script.note("Header length one beyond the octets lent, 22; equal to them, where the data is read as records, 23.");
    script.both(&beyond);
    beyond[7] = 40;
    script.both(&beyond);
}

/// Records behind the primary one, of which some octets more or fewer count as header; zeros
/// stand behind them as data.
fn stretched(records: &[Vec<u8>], more: i32) -> Vec<u8> {
    let mut file = file(0, records, &data(8));
    let header_length = (file.len() - 8) as i32 + more;
    file[4..8].copy_from_slice(&header_length.to_be_bytes());
    file[8..16].copy_from_slice(&((8 - more) as u64 * 8).to_be_bytes());
    file
}

fn record_length(script: &mut Script) {
    script.note(
        "23, \"record under 3 octets long\": 0, 1, 2; 3 is enough. Of a fixed type too, before 24.",
    );
    for length in [0, 1, 2, 3] {
        script.both(&file(0, &[record_of_length(4, length, &[])], &[0]));
    }
    for (kind, length) in [(1, 2), (0, 0), (128, 1)] {
        script.both(&file(0, &[record_of_length(kind, length, &[])], &[0]));
    }
    script.note("\"passing the header's end\": by one, ending at it; the data behind would hold it. Passing it by much; a fixed type, before 24 and 25.");
    let annotation = text(4, "OVL_DK01");
    script.both(&stretched(std::slice::from_ref(&annotation), -1));
    script.both(&stretched(std::slice::from_ref(&annotation), 0));
    script.both(&file(0, &[record_of_length(4, 0xffff, &[1, 2])], &data(20)));
    script.both(&file(0, &[record_of_length(4, 0x0105, &[1, 2])], &data(20)));
    script.both(&stretched(&[image(8, 2, 2, 0)], -1));
    script.both(&stretched(&[made(), made()], -1));
    script.note("\"under 3 octets left for it\": 1 and 2 left behind the primary record, and behind another; 3 left read as a record that is too long.");
    for more in [1, 2, 3] {
        script.both(&stretched(&[], more));
        script.both(&stretched(std::slice::from_ref(&annotation), more));
    }
    script.note("The same where nothing more is lent.");
    script.both(&of_header_length(17, 17));
    script.both(&of_header_length(18, 18));
    script.both(&of_header_length(19, 19));
    script.note("A record of 3 octets that ends the header, and one of 4 there.");
    script.all(&file(0, &[annotation.clone(), record(4, &[])], &[]), 3);
    script.both(&file(0, &[annotation, record_of_length(4, 4, &[])], &[9]));
}

/// The fixed types with their lengths.
const FIXED: [(u8, usize); 5] = [(0, 16), (1, 9), (2, 51), (5, 10), (128, 7)];

fn fixed_length(script: &mut Script) {
    script.note("24: each fixed type (0, 1, 2, 5, 128), one octet too short, one too long, 3 octets alone; then right, but for type 0, which is seen twice then.");
    for (kind, length) in FIXED {
        for octets in [length - 1, length + 1, 3, length] {
            script.both(&image_file(&[record(kind, &data(octets - 3))]));
        }
    }
    script.note("A length whose low octet is right: 256 + 9 and 256 + 7.");
    script.both(&image_file(&[record(1, &data(256 + 6))]));
    script.both(&image_file(&[record(128, &data(256 + 4))]));
    script.note("24 in the second record behind the primary, after a free one.");
    script.both(&image_file(&[text(4, "OVL_DK01"), record(5, &data(6))]));
}

fn seen_twice(script: &mut Script) {
    script.note("25: each fixed type twice, one behind the other, and with other records between.");
    for (kind, length) in FIXED {
        let fixed = record(kind, &data(length - 3));
        script.both(&image_file(&[fixed.clone(), fixed.clone()]));
        let between = [fixed.clone(), text(4, "A"), record(255, &[1]), fixed];
        script.both(&image_file(&between));
    }
    script.note("Type 0 again: length 16 is 25, 15 and 17 are 24. Last of all the records.");
    for length in [16, 15, 17] {
        let again = record(0, &data(length - 3));
        script.both(&image_file(&[image(8, 1, 1, 0), made(), again]));
    }
    script.note("A fixed type again with a wrong length: 24 before 25.");
    for (kind, length) in FIXED {
        let fixed = record(kind, &data(length - 3));
        let longer = record(kind, &data(length - 2));
        let first = if kind == 0 { text(4, "A") } else { fixed };
        script.both(&image_file(&[first, longer]));
    }
}

fn record_by_record(script: &mut Script) {
    script.note("\"23, 24, 25 are tried record by record\": 25 at record 2 before 23 at record 3; 24 at 1 before 23 at 2; 23 at 1 before 24 at 2; 25 at 2 before 24 at 3.");
    let short = record_of_length(4, 2, &[]);
    let wrong = record(5, &data(6));
    script.both(&image_file(&[made(), made(), short.clone()]));
    script.both(&image_file(&[wrong.clone(), short.clone()]));
    script.both(&image_file(&[short, wrong.clone()]));
    script.both(&image_file(&[made(), made(), wrong.clone()]));
    script.note("Each of them before 26: the data field is one octet short.");
    let cut = |records: &[Vec<u8>]| {
        let mut file = image_file(records);
        file.pop();
        file
    };
    script.both(&cut(&[record_of_length(4, 2, &[])]));
    script.both(&cut(&[wrong]));
    script.both(&cut(&[made(), made()]));
    script.both(&cut(&[made()]));
}

/// A time stamp file with any data field length and so many octets of data.
fn of_bits(bits: u64, octets: usize) -> Vec<u8> {
    let header = primary(0, 26, bits);
    [header, made(), data(octets)].concat()
}

fn data_length(script: &mut Script) {
    script.note("26, \"data field bits rounded up to octets\": 0, 1, 7, 8, 9, 16, 17 bits with the right octets, one octet short, one too long.");
    for (bits, octets) in [(0, 0), (1, 1), (7, 1), (8, 1), (9, 2), (16, 2), (17, 3)] {
        script.both(&of_bits(bits, octets));
        if octets > 0 {
            script.both(&of_bits(bits, octets - 1));
        }
        script.both(&of_bits(bits, octets + 1));
    }
    script.note("2^64 - 1 and others that overflow where 7 is added or 32 bits are kept: 2^64 - 8, 2^64 - 7, 2^63, 2^35, 2^35 + 8, 2^32, 65,536 + 8.");
    let (all, wide) = (u64::MAX, 1 << 35);
    for bits in [
        all,
        all - 7,
        all - 6,
        1 << 63,
        wide,
        wide + 8,
        1 << 32,
        65_544,
    ] {
        script.both(&of_bits(bits, 0));
        script.both(&of_bits(bits, 1));
    }
    script.note("The most that a question can lend: 998 octets of data for H, 996 for R; one octet short of what the field says.");
    script.header(&of_bits(998 * 8, 998));
    script.header(&of_bits(998 * 8 + 1, 998));
    script.record(1, &of_bits(996 * 8, 996));
    script.record(1, &of_bits(996 * 8 - 8, 996));
}

fn no_such_record(script: &mut Script) {
    script.note("27: a primary record alone has record 0 and no other; 26 comes before 27.");
    let alone = primary(0, 16, 0);
    for number in [0, 1, 2, 16, 255, 256, 65_535] {
        script.record(number, &alone);
    }
    script.record(2, &of_bits(8, 1));
    script.record(2, &of_bits(8, 2));
    script.record(1, &of_bits(8, 2));
}
