//! The vectors script and the trial script.

use second::makers::make;
use second::model::{trial, vectors};

fn answers(script: &str) -> String {
    let mut out = Vec::new();
    vectors::run(script.as_bytes(), &mut out);
    String::from_utf8(out).expect("ASCII")
}

const QUESTIONS: &[(&str, &str)] = &[
    ("N 00000005", "N ff480ec09a"),
    ("N 00fe0003", "N 58ff48"),
    ("N ffff0000", "N"),
    ("N ffff0401", "?"),
    ("N 0000000", "?"),
    ("C", "C ffff"),
    ("C ", "C ffff"),
    ("C fF", "C ff00"),
    ("C  ff", "?"),
    ("C ff ", "?"),
    ("C\tff", "?"),
    ("Cff", "?"),
    ("C fg", "?"),
    ("C f", "?"),
    ("X", "?"),
    ("c 00", "?"),
    ("F 4042123456fffb73", "F 1 1 2 1193046 883 at 883"),
    ("F 4042000000000374", "F 1 1 2 0 884 refused"),
    ("F 40420000000007ff", "F 1 1 2 0 2047 none"),
    ("F 40420000000007", "?"),
    ("P 0005c00000", "P short"),
    ("P", "P short"),
    ("P 0005c000000c", "P good 5 file 3 0 19"),
    ("P 07e07fff0000ff", "P good 2016 other 1 16383 7"),
    ("P 07ffc000035a", "P good 2047 fill 3 0 865"),
    ("P 07ffc0002000", "P bad"),
    ("P 07dfc0000001", "P bad"),
    ("L 0000000000000008", "L 1 11"),
    ("L 000000000000ffa0", "L 1 8190"),
    ("L 000000000000ffa8", "L 2 1"),
    ("L fffffffffffffff8", "L 281543712968706 11"),
    ("L 000000000000000c", "L 1 12"),
    ("L 0000000000000001", "L 1 11"),
    ("L 000000000000ffa1", "L 2 1"),
    ("L ffffffffffffffff", "L 281543712968706 12"),
    ("L 0000000000000000", "L bad"),
    ("W ffffff000000", "W 1"),
    ("W 000000000000", "W 0"),
];

#[test]
fn questions() {
    for (question, answer) in QUESTIONS {
        assert_eq!(
            answers(&format!("{question}\n")),
            format!("{answer}\n"),
            "{question}"
        );
    }
}

#[test]
fn shapes() {
    let two = "000000000000ffa8";
    let one = "0000000000000008";
    let twelve = "000000000000000c";
    let odd = "000000000000ffa1";
    for (question, answer) in [
        (format!("S 011ffe{two}000000000000"), "S 1"),
        (format!("S 011ffd{two}000000000000"), "S 0"),
        (format!("S 011ffe{one}000000000000"), "S 0"),
        (format!("S 03000b{one}000000000000"), "S 1"),
        (format!("S 03000c{one}000000000000"), "S 0"),
        (format!("S 020001{two}00013fff0000"), "S 1"),
        (format!("S 020002{two}00013fff0000"), "S 0"),
        (format!("S 020001{two}000200000001"), "S 0"),
        (format!("S 020001{two}000100000000"), "S 0"),
        (format!("S 001ffe{two}000100000001"), "S 0"),
        (format!("S 001ffe{two}000200000001"), "S 1"),
        (format!("S 041ffe{two}000000000000"), "?"),
        (format!("S 011ffe{two}000040000000"), "?"),
        (format!("S 011ffe{two}000000004000"), "?"),
        (format!("S 03000b{twelve}000000000000"), "S 0"),
        (format!("S 03000c{twelve}000000000000"), "S 1"),
        (format!("S 03000d{twelve}000000000000"), "S 0"),
        (format!("S 020001{odd}00013fff0000"), "S 1"),
        (format!("S 011ffe{odd}000000000000"), "S 1"),
        (format!("S 031ffe{odd}000000000000"), "S 0"),
        ("S 011ffe0000000000000000000000000000".to_string(), "S bad"),
        ("S 03000a0000000000000000000000000000".to_string(), "S bad"),
        ("S 041ffe0000000000000000000000000000".to_string(), "?"),
    ] {
        assert_eq!(
            answers(&format!("{question}\n")),
            format!("{answer}\n"),
            "{question}"
        );
    }
}

#[test]
fn lines_that_are_passed_over() {
    assert_eq!(answers(""), "");
    assert_eq!(answers("\n\n# C\nC\nC"), "C ffff\n");
    assert_eq!(answers("C\r\n #\n"), "?\n?\n");
    let long = "0".repeat(2048);
    assert_eq!(answers(&format!("P {long}\n")), "P bad\n");
    assert_eq!(answers(&format!("P {long}00\n")), "?\n");
}

fn command(letter: u8, a: u8, b: u16, c: u32, d: u64, payload: &[u8]) -> Vec<u8> {
    let fixed = [
        &[letter, a][..],
        &b.to_be_bytes(),
        &c.to_be_bytes(),
        &d.to_be_bytes(),
    ]
    .concat();
    [fixed, payload.to_vec()].concat()
}

fn tried(commands: &[Vec<u8>]) -> String {
    let mut out = Vec::new();
    trial::run(&commands.concat(), &mut out);
    String::from_utf8(out).expect("ASCII")
}

fn set_up() -> Vec<u8> {
    let lent = command(b'M', 0, 0, 4 * 8198, 7 * 8190, &[]);
    [lent, command(b'S', 1, 4, 0, 0, &[0, 1, 2, 3])].concat()
}

#[test]
fn the_example_frame_tried() {
    let example = make::example_frame(false);
    let out = tried(&[
        set_up(),
        command(b'F', 0, 900, 1024, 0, &example),
        command(b'H', 0, 0, 0, 0, &[]),
        command(b'R', 0, 0, 1, 0, &[]),
        command(b'R', 0, 0, 0, 1, &[]),
        command(b'R', 0, 0, 1, 1, &[]),
        command(b'I', 7, 0, 7, 7, &[]),
        command(b'I', 0, 32, 0, 0, &[]),
        command(b'L', 0, 32, 0, 0, &[]),
        command(b'L', 0, 0, 0, 0, &[]),
        command(b'L', 0, 0, 0, 0, &[]),
    ]);
    let store = [&[0, 0, 0, 0, 0, 0, 0, 0, 0, 8][..], &vec![0; 7 * 8190 - 10]].concat();
    let (desks, store) = (
        second::model::crc::crc(&vec![0; 4 * 8198]),
        second::model::crc::crc(&store),
    );
    let expected = format!(
        "S 0\nF 0 2\nE 10 5 0\nE 12 5 0\nH {desks} {store}\nT 0 2 5 8 0 1 0\nK 0 0 0 0\n\
         K 1 0 0 0\nK 2 0 1 0\nK 3 0 0 0\nR 0 00\nR 0\nR 14\nI 0 2 5 0 8\nI 11\nL 11\nL 0 1\nL 11\nEND 12 0\n"
    );
    assert_eq!(out, expected);
}

#[test]
fn pokes() {
    let out = tried(&[
        set_up(),
        command(b'P', 0, 0x1ff, 0, 8197, &[]),
        command(b'F', 0, 900, 0, 0, &[]),
        command(b'P', 0, 0x100, 0, 8197, &[]),
        command(b'P', 1, 1, 0, u64::MAX, &[]),
        command(b'P', 2, 1, 0, 0, &[]),
        command(b'F', 0, 900, 0, 0, &[]),
        command(b'Q', 12, 4, 0, 0x1_0001, &[]),
        command(b'Q', 10, 4, 0, 8, &[]),
        command(b'Q', 8, 4, 0, 0x102, &[]),
        command(b'Q', 7, 6, 0, 5, &[]),
        command(b'Q', 4, 2, 0, 1 << 63, &[]),
        command(b'Q', 12, 32, 0, 1, &[]),
        command(b'Q', 13, 0, 0, 1, &[]),
        command(b'H', 0, 0, 0, 0, &[]),
        command(b'L', 0, 4, 0, 0, &[]),
        command(b'Q', 1, 99, 0, 0, &[]),
        command(b'L', 0, 4, 0, 0, &[]),
    ]);
    let crcs = (
        second::model::crc::crc(&vec![0; 4 * 8198]),
        second::model::crc::crc(&vec![0; 7 * 8190]),
    );
    let expected = format!(
        "S 0\nF 2 0\nF 3 0\nH {} {}\nT 4 2 0 8 0 1 6\nK 0 0 0 0\nK 1 0 0 0\nK 2 0 1 0\n\
         K 3 0 0 0\nL 0 1\nL 2\nEND 19 0\n",
        crcs.0, crcs.1
    );
    assert_eq!(out, expected);
}

#[test]
fn where_a_run_ends() {
    let empty = "END 0 ";
    for (script, left) in [
        (vec![], 0),
        (vec![b'H'; 15], 15),
        (command(b'X', 0, 0, 0, 0, &[]), 16),
        (command(b'D', 0, 0, 0, 0, &[]), 16),
        (command(b'D', 0, 900, 1024, 0, &[0; 1024]), 1040),
        (command(b'S', 0, 65, 0, 0, &[0; 65]), 81),
        (command(b'S', 0, 4, 0, 0, &[0; 3]), 19),
        (command(b'F', 0, 1201, 0, 0, &[]), 16),
        (command(b'F', 0, 900, 2049, 0, &[0; 2049]), 2065),
        (command(b'F', 0, 900, u32::MAX, 0, &[]), 16),
        (command(b'R', 0, 0, 16_385, 0, &[]), 16),
    ] {
        assert_eq!(tried(&[script]), format!("{empty}{left}\n"));
    }
    let nothing = second::model::crc::crc(&[]);
    let shown = format!("H {nothing} {nothing}\nL 2\nR 1\nF 1 0\nS 10\nEND 5 17\n");
    let letters = [(b'H', 0), (b'L', 0), (b'R', 0), (b'F', 900), (b'S', 0)];
    let mut script: Vec<Vec<u8>> = letters
        .iter()
        .map(|&(letter, b)| command(letter, 0, b, 0, 0, &[]))
        .collect();
    script.push(vec![0; 17]);
    assert_eq!(tried(&script), shown);
}
