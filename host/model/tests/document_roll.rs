//! "This roll, without an image: [...] prints [...]"; by the request that counts the pages put
//! back, "line 8 of document 01's roll then prints 2".

use model::play;

const ROLL: &str = "     1     0     8     0     0     0     0
     2     0    64     2     0     0     3
     6     0     5     7     0     0     0
     7     0     0     0     0     0     0
     6     0     5     9     0     0     0
     6     0   300     4     0     0     0
     9     0     0     0     0     0     0
     8     0     0     0     0     0     0
     5     0     5     0     0     0     0
     5     0   300     0     0     0     0
     9     0     0     0     0     0     0
     7     0     0     0     0     0     0
";

const PRINTED: &str = "     1     0     0
     2     0     0
     3     0     0
     4     0     2
     5     0     0
     6     0     0
     7     0     3
     8     0     2
     9     0     7
    10     0     0
    11     0     3
    12     7     0
";

#[test]
fn the_documents_roll_prints_its_twelve_answers() {
    let printed = play(ROLL.as_bytes(), None, 128);
    assert_eq!(String::from_utf8(printed).unwrap(), PRINTED);
}

#[test]
fn a_missing_image_is_an_empty_one() {
    assert_eq!(play(ROLL.as_bytes(), Some(&[]), 128), PRINTED.as_bytes());
}

#[test]
fn eight_frames_are_enough_for_it_and_seven_are_not() {
    assert_eq!(play(ROLL.as_bytes(), None, 8), PRINTED.as_bytes());
    let printed = String::from_utf8(play(ROLL.as_bytes(), None, 7)).unwrap();
    let numbers: Vec<&str> = printed.lines().map(|line| line[6..12].trim()).collect();
    assert_eq!(numbers[0], "13");
    assert!(numbers[1..].iter().all(|&number| number == "4"));
}
