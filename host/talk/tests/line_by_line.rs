//! The player answers each line as soon as it has come.

use model::LINE_BYTES;
use rolls::Case;
use std::fs;
use std::time::Duration;
use talk::{root, Folder, Talk, REPLY_BYTES};

fn first_roll() -> Vec<u8> {
    fs::read(root().join("examples/first.roll")).expect("document 01's roll")
}

fn first_answers() -> Vec<u8> {
    fs::read(root().join("examples/first.answers")).expect("document 01's answers")
}

/// Sends a line, waits for its reply, sends the next.
fn talks(roll: &[u8], answers: &[u8], folder: &Folder) {
    let mut talk = Talk::in_folder(folder);
    for (number, (line, answer)) in
        roll.chunks(LINE_BYTES).zip(answers.chunks(REPLY_BYTES)).enumerate()
    {
        talk.send(line);
        assert_eq!(talk.reply().as_bytes(), answer, "line {}", number + 1);
    }
    assert_eq!(talk.end(), "");
}

#[test]
fn the_documents_roll() {
    talks(&first_roll(), &first_answers(), &Folder::new());
}

#[test]
fn random_rolls() {
    for seed in 0..40 {
        let case = Case::for_player(seed);
        let whole = case.roll.len() / LINE_BYTES * LINE_BYTES;
        let folder = Folder::with_image(Some(&case.image));
        talks(&case.roll[..whole], &case.printed(), &folder);
    }
}

/// No reply comes before the line's last byte.
#[test]
fn a_line_that_comes_in_parts() {
    let folder = Folder::new();
    let mut talk = Talk::in_folder(&folder);
    let (roll, answers) = (first_roll(), first_answers());
    let mut lines = roll.chunks(LINE_BYTES).zip(answers.chunks(REPLY_BYTES));
    let (line, answer) = lines.next().expect("a line");
    talk.send(&line[..42]);
    assert!(talk.is_silent(Duration::from_millis(200)));
    talk.send(&line[42..]);
    assert_eq!(talk.reply().as_bytes(), answer);
    for (line, answer) in lines {
        line.iter().for_each(|&byte| talk.send(&[byte]));
        assert_eq!(talk.reply().as_bytes(), answer);
    }
    assert_eq!(talk.end(), "");
}

/// "A short last line is malformed."
#[test]
fn a_short_last_line() {
    let folder = Folder::new();
    let mut talk = Talk::in_folder(&folder);
    talk.send(&first_roll()[..LINE_BYTES + 42]);
    assert_eq!(talk.reply(), "     1     0     0\n");
    assert!(talk.is_silent(Duration::from_millis(200)));
    assert_eq!(talk.end(), "     2     1     0\n");
}

#[test]
fn a_roll_of_no_line() {
    assert_eq!(Talk::in_folder(&Folder::new()).end(), "");
}
