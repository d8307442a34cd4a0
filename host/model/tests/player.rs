//! "The roll and its player", apart from the document's own roll.

use crate::common::{image, roll};
use model::{call_line, parse_line, play, reply_line, Call, LINES, LINE_BYTES};

const REPORT: &[u8] = b"     9     0     0     0     0     0     0\n";

/// Numbers and values printed for a roll; line numbers are checked on the way.
fn played(roll: &[u8], image: Option<&[u8]>) -> Vec<(u16, u32)> {
    let printed = String::from_utf8(play(roll, image, 128)).unwrap();
    let reply = |(index, line): (usize, &str)| {
        assert_eq!(line.len(), 18);
        let field = |at: usize| line[at..at + 6].trim_start().parse::<u32>().unwrap();
        assert_eq!(field(0) as usize, index + 1);
        (field(6) as u16, field(12))
    };
    printed.lines().enumerate().map(reply).collect()
}

fn with_first_field(field: &[u8; 6]) -> Vec<u8> {
    [field, &REPORT[6..]].concat()
}

#[test]
fn a_line_has_43_bytes_and_reads_back() {
    assert_eq!((LINE_BYTES, REPORT.len()), (43, 43));
    let call = Call { code: 65_535, sandbox: 0, parameters: [10, 9_999, 0, 65_530, 7] };
    assert_eq!(call_line(&call).len(), 43);
    assert_eq!(parse_line(&call_line(&call)), Some(call));
}

#[test]
fn well_formed_fields() {
    for (field, number) in [(b"     0", 0), (b"     9", 9), (b"    10", 10), (b" 65535", 65_535)] {
        let call = parse_line(&with_first_field(field)).expect("well formed");
        assert_eq!(call.code, number);
    }
}

#[test]
fn malformed_fields() {
    let fields = [
        b"    05",
        b"000000",
        b"    00",
        b"000005",
        b"5     ",
        b"    5 ",
        b"   5 5",
        b"      ",
        b" 65536",
        b"100000",
        b"999999",
        b"    +5",
        b"    -1",
        b"     x",
        b"\t    5",
        b"    5\n",
        b"    5.",
        b"   0x5",
        b"\0    5",
        b"     \xb2",
    ];
    for field in fields {
        assert_eq!(parse_line(&with_first_field(field)), None, "{field:?}");
    }
}

#[test]
fn every_field_is_looked_at_and_so_is_the_line_feed() {
    for field in 0..7 {
        let mut line = REPORT.to_vec();
        line[6 * field + 4] = b'0';
        assert_eq!(parse_line(&line), None, "field {field}");
    }
    for last in [b' ', b'\r', b'0', 0] {
        let mut line = REPORT.to_vec();
        line[42] = last;
        assert_eq!(parse_line(&line), None);
    }
}

#[test]
fn after_a_malformed_line_the_next_43_bytes_follow() {
    let mut bad = REPORT.to_vec();
    bad[3] = b'\n';
    let roll = [roll(&["1 0 8"]), bad, roll(&["2 0 64 2 0 0 3", "9 0"])].concat();
    assert_eq!(played(&roll, None), [(0, 0), (1, 0), (0, 0), (0, 0)]);
    // A byte too many puts every later line out of step.
    let roll = [b" ".to_vec(), roll].concat();
    assert_eq!(played(&roll, None), [(1, 0); 5]);
}

#[test]
fn a_short_last_line_is_malformed() {
    assert_eq!(played(&REPORT[..42], None), [(1, 0)]);
    assert_eq!(played(b"\n", None), [(1, 0)]);
    assert_eq!(played(&[REPORT, b" "].concat(), None), [(4, 0), (1, 0)]);
    assert_eq!(played(b"", None), []);
}

#[test]
fn lines_after_the_65535th_are_not_read() {
    assert_eq!(LINES, 65_535);
    let printed = play(&REPORT.repeat(65_535 + 3), None, 128);
    assert_eq!(printed.len(), 65_535 * 19);
    assert!(printed.ends_with(b" 65535     4     0\n"));
    // A malformed line is a line as well.
    let roll = [vec![b'x'; LINE_BYTES], REPORT.repeat(65_534), REPORT[..5].to_vec()].concat();
    assert_eq!(play(&roll, None, 128).len(), 65_535 * 19);
}

#[test]
fn replies_are_three_fields_of_the_same_columns() {
    assert_eq!(reply_line(1, 0, 0), b"     1     0     0\n");
    assert_eq!(reply_line(65_535, 14, 255), b" 65535    14   255\n");
}

#[test]
fn a_wrong_image_is_refusal_3_on_each_line_not_refused_1_or_2() {
    let roll = [
        roll(&["1 0 8", "0 0", "11 9", "9 4", "9 0 1"]),
        with_first_field(b"    05"),
        roll(&["9 0"]),
        b"9".to_vec(),
    ]
    .concat();
    let refused = [(3, 0), (2, 0), (2, 0), (3, 0), (3, 0), (1, 0), (3, 0), (1, 0)];
    let bytes = image(65);
    for length in [1, 255, 257, 64 * 256 - 1, 64 * 256 + 1, 65 * 256] {
        assert_eq!(played(&roll, Some(&bytes[..length])), refused, "{length} bytes");
    }
    for length in [0, 256, 64 * 256] {
        let (number, _) = played(&roll, Some(&bytes[..length]))[0];
        assert_eq!(number, 0, "{length} bytes");
    }
}
