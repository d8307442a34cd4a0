//! "the image from `image.bin` (missing: empty; not whole pages or above 64: a wrong
//! length, refusal 3 on each line not refused 1 or 2)"

use model::{call_line, play, Call};
use rolls::PLAYER_FRAMES;
use std::fs::{self, File, Permissions};
use std::os::unix::fs::{symlink, PermissionsExt};
use talk::{Folder, Talk};

fn call(code: u16, parameters: [u16; 5]) -> Vec<u8> {
    call_line(&Call { code, sandbox: 0, parameters })
}

/// A malformed line, an unknown code, an open, a map of image page 0, and a read of its byte 7.
fn roll() -> Vec<u8> {
    let malformed = vec![b'?'; 43];
    let calls = [
        call(0, [0; 5]),
        call(1, [8, 0, 0, 0, 0]),
        call(2, [0, 1, 1, 0, 1]),
        call(5, [7, 0, 0, 0, 0]),
    ];
    [malformed].into_iter().chain(calls).collect::<Vec<_>>().concat()
}

/// What the player prints for the roll in a folder.
fn printed_in(folder: &Folder) -> String {
    let mut talk = Talk::in_folder(folder);
    talk.send(&roll());
    talk.end()
}

const WRONG_LENGTH: &str = "     1     1     0
     2     2     0
     3     3     0
     4     3     0
     5     3     0
";

const EMPTY: &str = "     1     1     0
     2     2     0
     3     0     0
     4     6     0
     5     9     0
";

#[test]
fn missing() {
    assert_eq!(printed_in(&Folder::new()), EMPTY);
}

#[test]
fn of_each_length() {
    for bytes in [0, 1, 255, 256, 257, 16_128, 16_383, 16_384, 16_385, 16_640, 100_000] {
        let image: Vec<u8> = (0..bytes).map(|at: usize| at as u8).collect();
        let printed = printed_in(&Folder::with_image(Some(&image)));
        let expected = play(&roll(), Some(&image), PLAYER_FRAMES);
        assert_eq!(printed.as_bytes(), expected, "{bytes} bytes");
        let whole = bytes % 256 == 0 && bytes <= 16_384;
        assert_eq!(printed == WRONG_LENGTH, !whole, "{bytes} bytes");
        assert_eq!(printed.ends_with("     5     0     7\n"), whole && bytes > 0, "{bytes} bytes");
    }
}

#[test]
fn a_folder() {
    let folder = Folder::new();
    fs::create_dir(folder.image()).expect("a folder in place of the image");
    assert_eq!(printed_in(&folder), WRONG_LENGTH);
}

/// A file that can be opened and not read: no byte stands at address 0.
#[test]
fn a_read_that_fails() {
    let folder = Folder::new();
    symlink("/proc/self/mem", folder.image()).expect("a link in place of the image");
    assert_eq!(printed_in(&folder), WRONG_LENGTH);
}

#[test]
fn without_permission() {
    let folder = Folder::with_image(Some(&[0; 256]));
    fs::set_permissions(folder.image(), Permissions::from_mode(0o000)).expect("its owner may");
    if File::open(folder.image()).is_ok() {
        println!("not tried: this user reads files without permission");
        return;
    }
    assert_eq!(printed_in(&folder), WRONG_LENGTH);
}

/// A link that leads to itself cannot be opened, and is not missing.
#[test]
fn a_link_to_itself() {
    let folder = Folder::new();
    symlink("image.bin", folder.image()).expect("a link in place of the image");
    assert_eq!(printed_in(&folder), WRONG_LENGTH);
}
