//! The header reader: the papers' records, and 20 to 27 on both sides of their lines.

use second::makers::make_header::{file, image, navigation, primary, record, segment, text, time};
use second::model::records::{header, record as record_of, Record, Refusal};
use second::model::vectors;

fn octets(hexadecimal: &str) -> Vec<u8> {
    let digits: Vec<char> = hexadecimal.chars().filter(|digit| *digit != ' ').collect();
    digits
        .chunks(2)
        .map(|two| {
            let two: String = two.iter().collect();
            u8::from_str_radix(&two, 16).expect("two digits")
        })
        .collect()
}

#[test]
fn records_as_the_tables_print_them() {
    assert_eq!(
        primary(0, 133, 16),
        octets("00 0010 00 00000085 0000000000000010")
    );
    assert_eq!(image(8, 2200, 220, 0), octets("01 0009 08 0898 00DC 00"));
    assert_eq!(
        time(0x40, 15_705, 84_720_000),
        octets("05 000A 40 3D59 050CB980")
    );
    assert_eq!(segment(3, 10, 441), octets("80 0007 03 0A 01B9"));
    let name = navigation("GEOS(140.0)", [1, -1, i32::MIN, i32::MAX]);
    assert_eq!(name[..14], octets("02 0033 47454F53283134302E3029"));
    assert_eq!(name[14..35], [0x20; 21]);
    assert_eq!(name[35..], octets("00000001 FFFFFFFF 80000000 7FFFFFFF"));
}

#[test]
fn annotations_with_their_lengths() {
    for (name, length) in [
        ("IMG_DK01IR1_200012312332_001", 31),
        ("OVL_DK01", 11),
        ("IMG_APNH_01_IR1_20000912_061700.lrit", 39),
        ("ADD_AMV_00_20000912_052500_00.lrit", 37),
        ("ADD_ENCMEG_00_20000912_052500_00.lrit", 40),
        ("IMG_FD_01_VIS_20000912_061700_03.LRIT", 40),
    ] {
        let file = file(0, &[text(4, name)], &[]);
        let annotation = Record {
            kind: 4,
            place: 16,
            length,
        };
        assert_eq!(record_of(&file, 1), Ok(annotation));
        assert_eq!(record_of(&file, 2), Err(Refusal::NoSuchRecord));
    }
}

#[test]
fn fields_and_their_absence() {
    let bare = header(&file(2, &[], b"text")).expect("a good header");
    assert_eq!((bare.primary.file_type, bare.primary.bits), (2, 32));
    assert!(bare.image.is_none() && bare.navigation.is_none());
    assert!(bare.time.is_none() && bare.segment.is_none());
    let full = file(0, &[segment(0, 0, 0), navigation("", [-1, 0, 1, -2])], &[]);
    let full = header(&full).expect("a good header");
    assert_eq!(full.segment.map(|segment| segment.line), Some(0));
    let numbers = full.navigation.map(|navigation| navigation.numbers);
    assert_eq!(numbers, Some([-1, 0, 1, -2]));
}

fn refusal(file: &[u8]) -> Option<Refusal> {
    let answer = header(file).err();
    assert_eq!(record_of(file, 0).err(), answer);
    answer
}

#[test]
fn refusals() {
    let good = primary(0, 16, 0);
    assert_eq!(refusal(&good[..15]), Some(Refusal::UnderSixteenOctets));
    assert_eq!(refusal(&good), None);
    let mut other = good.clone();
    other[2] = 17;
    assert_eq!(refusal(&other), Some(Refusal::NotPrimaryFirst));
    assert_eq!(refusal(&primary(0, 15, 0)), Some(Refusal::HeaderLength));
    assert_eq!(refusal(&primary(0, 17, 0)), Some(Refusal::HeaderLength));
    let short = [primary(0, 18, 0), vec![4, 0]].concat();
    assert_eq!(refusal(&short), Some(Refusal::RecordLength));
    let wrong = file(0, &[record(5, &[0; 6])], &[]);
    assert_eq!(refusal(&wrong), Some(Refusal::FixedLength));
    let again = file(0, &[record(0, &[0; 13])], &[]);
    assert_eq!(refusal(&again), Some(Refusal::SeenTwice));
    assert_eq!(refusal(&primary(0, 16, 1)), Some(Refusal::DataLength));
    assert_eq!(
        refusal(&primary(0, 16, u64::MAX)),
        Some(Refusal::DataLength)
    );
}

/// "data field bits rounded up to octets"
#[test]
fn data_fields_that_are_no_whole_octets() {
    for (bits, octets) in [(0, 0), (1, 1), (7, 1), (8, 1), (9, 2), (12, 2)] {
        let file = [primary(0, 16, bits), vec![0xff; octets]].concat();
        assert_eq!(refusal(&file), None, "{bits}");
        let longer = [&file[..], &[0]].concat();
        assert_eq!(refusal(&longer), Some(Refusal::DataLength), "{bits}");
        if octets > 0 {
            let shorter = &file[..file.len() - 1];
            assert_eq!(refusal(shorter), Some(Refusal::DataLength), "{bits}");
        }
    }
}

#[test]
fn records_are_judged_one_by_one() {
    let twice_then_short = [segment(1, 1, 1), segment(1, 1, 1), vec![4, 0, 2]];
    assert_eq!(
        refusal(&file(0, &twice_then_short, &[])),
        Some(Refusal::SeenTwice)
    );
    let again_longer = [segment(1, 1, 1), record(128, &[0; 5])];
    assert_eq!(
        refusal(&file(0, &again_longer, &[])),
        Some(Refusal::FixedLength)
    );
}

#[test]
fn questions_and_answers() {
    let mut out = Vec::new();
    let script = "H\nH 00001000000000100000000000000000\nR 0000\nR 00\n\
                  R 000000001000000000100000000000000000\n\
                  R 000100001000000000100000000000000000\n";
    vectors::run(script.as_bytes(), &mut out);
    let answers = "H 20\nH 0 primary 0 16 0\nR 20\n?\nR 0 0 0 16\nR 27\n";
    assert_eq!(String::from_utf8(out).expect("ASCII"), answers);
}
