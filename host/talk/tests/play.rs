//! `./play` tells by its exit status whether every answer was written.

use std::fs::{self, File};
use std::path::Path;
use std::process::{Command, Output, Stdio};
use talk::{player, root, Folder};

fn play(arguments: &[&Path], output: Stdio) -> Output {
    player();
    Command::new(root().join("play"))
        .args(arguments)
        .stdin(Stdio::null())
        .stdout(output)
        .stderr(Stdio::piped())
        .spawn()
        .expect("it starts")
        .wait_with_output()
        .expect("it ends")
}

fn answers(name: &str) -> String {
    let path = root().join("examples").join(name).with_extension("answers");
    fs::read_to_string(path).expect("answers")
}

fn text(bytes: &[u8]) -> &str {
    std::str::from_utf8(bytes).expect("text")
}

#[test]
fn every_answer_written() {
    let played = play(&[&root().join("examples/first.roll")], Stdio::piped());
    assert_eq!(text(&played.stdout), answers("first"));
    assert_eq!((text(&played.stderr), played.status.code()), ("", Some(0)));
}

#[test]
fn no_room_for_the_answers() {
    let full = File::options().write(true).open("/dev/full").expect("a device without room");
    let played = play(&[&root().join("examples/first.roll")], Stdio::from(full));
    assert_eq!(text(&played.stderr), "stdout: No space left on device\n");
    assert_eq!(played.status.code(), Some(1));
}

/// Nobody reads the answers: the player says so and ends.
#[test]
fn a_reader_that_is_gone() {
    let mut gone = Command::new("true").stdin(Stdio::piped()).spawn().expect("a reader");
    let pipe = gone.stdin.take().expect("its input");
    gone.wait().expect("it ends");
    let played = play(&[&root().join("examples/first.roll")], Stdio::from(pipe));
    assert_eq!(played.status.code(), Some(1));
}

#[test]
fn a_roll_or_an_image_that_is_not_there() {
    let roll = root().join("examples/first.roll");
    let nowhere = root().join("examples/nowhere");
    for arguments in [&[&nowhere][..], &[&root()], &[&roll, &nowhere]] {
        let arguments: Vec<&Path> = arguments.iter().map(|path| path.as_path()).collect();
        let played = play(&arguments, Stdio::piped());
        assert_eq!((text(&played.stdout), played.status.code()), ("", Some(2)));
        assert!(text(&played.stderr).contains("there is no such"));
    }
}

/// "not whole pages or above 64: a wrong length, refusal 3": an image that is there and
/// cannot be read is no empty one.
#[test]
fn an_image_that_cannot_be_read() {
    let roll = root().join("examples/first.roll");
    let folder = Folder::new();
    let played = play(&[&roll, folder.path()], Stdio::piped());
    let expected: String = (1..=12).map(|line| format!("{line:6}{:6}{:6}\n", 3, 0)).collect();
    assert_eq!(text(&played.stdout), expected);
    assert_eq!(played.status.code(), Some(0));
}
