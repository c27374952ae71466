//! Lines in and out: round trips, answers in the words of the format, bad lines, the programs.

use crate::common::answered;
use oracle::case::Case;
use oracle::gen::{case, line, Kind, Rng};
use oracle::line::{filled_floats, filled_numbers};
use std::io::Write;
use std::process::{Command, Stdio};

const KINDS: [Kind; 13] = [
    Kind::Mesh,
    Kind::Read,
    Kind::Root,
    Kind::Normal,
    Kind::Window,
    Kind::Join,
    Kind::Cap,
    Kind::StlWrite,
    Kind::StlRead,
    Kind::Check,
    Kind::Attached,
    Kind::Measure,
    Kind::Part,
];

#[test]
fn cases_survive_printing() {
    let mut rng = Rng::new(21);
    for kind in KINDS {
        for _ in 0..2_000 {
            let line = case(&mut rng, kind).line();
            let again = Case::parse(line.as_bytes()).expect("a good line");
            assert_eq!(again.line(), line);
        }
    }
}

#[test]
fn bad_lines_are_bad() {
    let mut rng = Rng::new(22);
    for _ in 0..10_000 {
        let line = line(&mut rng, Kind::Bad);
        assert_eq!(answered(&line), "bad line", "{}", line);
    }
}

const ANSWERS: [(&str, &str); 18] = [
    ("root 40000000", "root 0 0 3FB504F3"),
    ("root 7FC00000", "root 13 0 00000000"),
    ("root 80000000", "root 13 0 00000000"),
    (
        "normal 3F800000 00000000 3F800000 00000000",
        "normal 0 0 80000000 3F800000",
    ),
    (
        "normal 7FC00000 00000000 3F800000 00000000",
        "normal 4 0 00000000 00000000",
    ),
    ("window 0", "window 0"),
    (
        "window 9 g0 r7 p1 p2 p3 p4 g0 r9 g2",
        "window 9 12:00000000 12 0 0 0 0 0:40000000 0 0:41100000",
    ),
    ("window 5 p1 n c n g0", "window 5 0 1 0 0 12:00000000"),
    ("window 000000002 p0009 g000", "window 2 0 0:41100000"),
    (
        "cap 3F800000 00000000 3F000000 40000000 65535",
        "cap 20 3FC00000 3F000000 3F800000 3F800000 40000000 3FC00000 BF000000 3F800000 \
         BF800000 40000000 3F000000 BF000000 BF800000 BF800000 40000000 3F000000 3F000000 \
         BF800000 3F800000 40000000 4 131071 131070 131070 131071 6 0 1 2 0 2 3",
    ),
    (
        "mesh 3F800000 40800000 0 0 3C000000 0 00000000 0 0 0 0 - 0",
        "mesh 0 0 0 0 0 0 0",
    ),
    (
        "mesh 3F800000 40800000 255 0 3C000000 0 00000000 0 3 1 2 - 0",
        "mesh 1 0 0 0 3 3E800000 3FA00000 40100000 1 3 2 3 10",
    ),
    ("read 0 0 -", "read 0 0 0 0 - 0"),
    (
        "read 3 3 4D31203220",
        "read 0 0 2 2 000211 3 3F800000 40000000 40100000",
    ),
    ("read 1 2 4D312032", "read 11 0 0 0 03 2 3E800000 3FA00000"),
    ("read 1 0 4D31", "read 9 2 0 0 03 0"),
    ("check 9999999999 3 0 1 4294967295", "check 23 2"),
    ("attached 6 6 0 1 2 3 4 5", "attached 24 1"),
];

#[test]
fn answers_of_each_kind() {
    for (case, answer) in ANSWERS {
        assert_eq!(answered(case), answer);
    }
}

#[test]
fn lent_lists_as_they_are_filled() {
    let numbers: Vec<u32> = filled_numbers(40);
    assert_eq!((numbers[0], numbers[35], numbers[36]), (3, 248, 4));
    let floats = filled_floats(81_920);
    assert_eq!((floats[0], floats[81_919]), (0.25, 81_919.25));
}

#[test]
fn ranges_of_the_format() {
    let good = [
        "read 4200 8400 -",
        "mesh 3F800000 40800000 255 255 3C000000 255 7FC00000 2 00000000 7FC00000 81920 49152 49152 - 0",
        "cap 00000000 00000000 3F800000 00000000 0",
        "window 2 p9999 g9",
        "root 0000000A",
        "check 9999999999 0",
        "join 3F800000 40800000 2 00000000 00000000 00000000 3F800000 00000000 3F800000 3F800000 3F800000 40000000",
    ];
    for line in good {
        assert_ne!(answered(line), "bad line", "{}", line);
    }
    let bad = [
        "read 4201 8400 -",
        "read 4200 8401 -",
        "mesh 3F800000 40800000 256 0 3C000000 0 00000000 0 0 0 0 - 0",
        "mesh 3F800000 40800000 0 256 3C000000 0 00000000 0 0 0 0 - 0",
        "mesh 3F800000 40800000 0 0 3C000000 256 00000000 0 0 0 0 - 0",
        "mesh 3F800000 40800000 0 0 3C000000 0 00000000 0 81921 0 0 - 0",
        "mesh 3F800000 40800000 0 0 3C000000 0 00000000 0 0 49153 0 - 0",
        "mesh 3F800000 40800000 0 0 3C000000 0 00000000 0 0 0 49153 - 0",
        "mesh 3F800000 40800000 0 0 3C000000 0 00000000 0 0 0 0 - 1",
        // W-201's range is a word of its own, and a NaN has one pattern.
        "mesh 3F800000 40800000 0 0 0 00000000 0 0 0 0 - 0",
        "mesh 3F800000 40800000 0 0 7FC00001 0 00000000 0 0 0 0 - 0",
        "mesh 3F800000 40800000 0 0 3C000000 0 00000000 0 0 0 0  0",
        // W-206's list has a length of its own, and an empty cap's endpoint is below 65,536.
        "mesh 3F800000 40800000 0 0 3C000000 0 00000000 0 0 0 - 0",
        // W-213's offset and lengths come behind the detail, the list with its own length.
        "mesh 3F800000 40800000 0 0 3C000000 0 0 0 0 - 0",
        "mesh 3F800000 40800000 0 0 3C000000 0 00000000 2 3F800000 0 0 0 - 0",
        "mesh 3F800000 40800000 0 0 3C000000 0 FFC00000 0 0 0 0 - 0",
        "mesh 3F800000 40800000 0 0 3C000000 0 00000000 1 7FC00001 0 0 0 - 0",
        "cap 00000000 00000000 3F800000 00000000",
        "cap 00000000 00000000 3F800000 00000000 65536",
        "window 1 p10000",
        "window 1 g10",
        "check 3 1 4294967296",
        "attached 3 3 0 1",
        "root 0000000a",
        "root 7FC00001",
        "join 3F800000 40800000 3 00000000 00000000 00000000 3F800000 00000000 3F800000 3F800000 3F800000 40000000",
    ];
    for line in bad {
        assert_eq!(answered(line), "bad line", "{}", line);
    }
}

fn run(program: &str, words: &[&str], input: &[u8]) -> Vec<u8> {
    let mut child = Command::new(program)
        .args(words)
        .stdin(Stdio::piped())
        .stdout(Stdio::piped())
        .spawn()
        .expect("the program starts");
    let mut stdin = child.stdin.take().expect("its input");
    stdin.write_all(input).expect("it reads");
    drop(stdin);
    child.wait_with_output().expect("it ends").stdout
}

#[test]
fn program_answer() {
    let answer = |input: &[u8]| run(env!("CARGO_BIN_EXE_answer"), &[], input);
    assert_eq!(answer(b""), b"");
    assert_eq!(answer(b"\n"), b"bad line\n");
    assert_eq!(answer(b"root 40800000"), b"root 0 0 40000000\n");
    assert_eq!(
        answer(b"root 40800000\n\nroot \xFF\nroot 3F800000\n"),
        b"root 0 0 40000000\nbad line\nbad line\nroot 0 0 3F800000\n"
    );
    let long = [
        b"root 40800000".as_slice(),
        &[b' '; 300_000],
        b"\nwindow 0\n",
    ]
    .concat();
    assert_eq!(answer(&long), b"bad line\nwindow 0\n");
}

#[test]
fn program_cases() {
    let cases = |seed: &str| run(env!("CARGO_BIN_EXE_cases"), &[seed, "300", "all"], b"");
    assert_eq!(cases("5"), cases("5"));
    assert_ne!(cases("5"), cases("6"));
    assert_eq!(
        cases("5").iter().filter(|&&byte| byte == b'\n').count(),
        300
    );
}

#[test]
fn program_stripe() {
    let stripe = |input: &[u8]| run(env!("CARGO_BIN_EXE_stripe"), &[], input);
    assert!(stripe(b"M0 1L2 1").starts_with(b"v 4\n00000000 40000000\n"));
    assert_eq!(stripe(&[b' '; 16_385]), b"refused 8 0\n");
}
