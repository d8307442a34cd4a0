//! Rolls through the wrapper, against their expected answers.

use gazhuppin::{FRAME_BYTES, TABLE_ENTRIES, lines, play, play_fresh};
use std::fs;
use std::path::{Path, PathBuf};

fn examples() -> PathBuf {
    Path::new(env!("CARGO_MANIFEST_DIR")).join("../../examples")
}

fn read(path: &Path) -> Vec<u8> {
    fs::read(path).unwrap_or_else(|error| panic!("{}: {error}", path.display()))
}

#[test]
fn the_documents_roll() {
    let roll = read(&examples().join("first.roll"));
    let expected = "     1     0     0
     2     0     0
     3     0     0
     4     0     2
     5     0     0
     6     0     0
     7     0     3
     8     0     2
     9     0     7
    10     0     0
    11     0     3
    12     7     0
";
    let played = play_fresh(&roll, &[], 128);
    assert_eq!(String::from_utf8(played.replies).unwrap(), expected);
    // Page 0 has a back, pages 0 and 1 have fronts, and nothing else has a frame.
    let held = (0..TABLE_ENTRIES).filter(|&at| played.table[at] != 0).collect::<Vec<_>>();
    assert_eq!(held, [0, 1, 64]);
    let frame = |entry: usize| {
        let number = usize::from(played.table[entry]) - 1;
        &played.pool[number * FRAME_BYTES..][..FRAME_BYTES]
    };
    let with_seven = std::array::from_fn::<u8, FRAME_BYTES, _>(|at| if at == 5 { 7 } else { 0 });
    assert_eq!((frame(0), frame(64)), (&with_seven[..], &with_seven[..]));
    assert_eq!(frame(1), [0; FRAME_BYTES]);
}

#[test]
fn the_example_rolls() {
    let mut names = Vec::new();
    for entry in fs::read_dir(examples()).expect("the examples") {
        let roll = entry.expect("an example").path();
        if roll.extension().is_some_and(|extension| extension == "roll") {
            let image = roll.with_extension("image");
            let image = if image.exists() { read(&image) } else { Vec::new() };
            let played = play_fresh(&read(&roll), &image, 128);
            let expected = read(&roll.with_extension("answers"));
            let [played, expected] =
                [&played.replies, &expected].map(|bytes| String::from_utf8_lossy(bytes));
            assert_eq!(played, expected, "{}", roll.display());
            names.push(roll);
        }
    }
    assert!(names.len() >= 29, "only {} examples: {names:?}", names.len());
}

#[test]
fn an_empty_roll_starts_the_machine_and_answers_nothing() {
    let (mut pool, mut table, mut out) = (vec![7; 3 * FRAME_BYTES], [7; TABLE_ENTRIES], [7; 4]);
    assert_eq!(play(&[], &[], &mut pool, &mut table, &mut out), Ok(0));
    assert_eq!((pool, table), (vec![0; 3 * FRAME_BYTES], [0; TABLE_ENTRIES]));
    assert_eq!(out, [7; 4]);
    assert_eq!(play(&[], &[], &mut [], &mut [], &mut []), Ok(0));
}

#[test]
fn lines_of_a_roll() {
    let counts = [0, 1, 42, 43, 44, 86, 43 * 65_534, 43 * 65_535, 43 * 65_535 + 1, usize::MAX];
    let expected = [0, 1, 1, 1, 2, 2, 65_534, 65_535, 65_535, 65_535];
    assert_eq!(counts.map(lines), expected);
}

#[test]
fn lines_after_the_65535th_are_not_read() {
    let open = b"     1     0     8     0     0     0     0\n";
    let open_another = b"     1     1     8     0     0     0     0\n";
    let mut roll = open.repeat(65_535);
    roll.extend(open_another);
    let played = play_fresh(&roll, &[], 128);
    assert_eq!(played.replies.len(), 19 * 65_535);
    assert!(played.replies.starts_with(b"     1     0     0\n     2     5     0\n"));
    assert!(played.replies.ends_with(b" 65535     5     0\n"));
}

/// Both are only read, so one region may serve for both.
#[test]
fn the_roll_may_be_its_own_image() {
    let mut roll = b"     1     0     8     0     0     0     0\n".to_vec();
    roll.extend(b"     2     0     0     1     1     0     3\n");
    roll.extend(b"     5     0     5     0     0     0     0\n");
    roll.extend(b"     6     0     6     1     0     0     0\n");
    roll.extend(b"     5     0     5     0     0     0     0\n");
    roll.resize(roll.len().next_multiple_of(FRAME_BYTES), b'x');
    let mut played = play_fresh(&roll, &roll, 8);
    played.replies.truncate(5 * 19);
    let expected = model::play(&roll, Some(&roll), 8);
    assert_eq!(played.replies, expected[..5 * 19]);
    assert_eq!(played.replies[4 * 19..], *b"     5     0    49\n", "the digit 1");
}
