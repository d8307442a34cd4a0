//! The unproved writer of archives answers and writes as the model does, so that it is a fair
//! measure.

use bench::unproved::Left;
use model::{play_on, Machine};
use rolls::Case;

#[test]
fn the_unproved_writer_writes_the_models_archives() {
    let mut answers = [0; 16];
    for seed in 0..1_500 {
        let case = Case::random(seed);
        let mut model = Machine::fresh(&case.image, case.frames);
        play_on(&case.roll, &mut model);
        let mut left = Left::after(&case.roll, &case.image, case.frames);
        for sandbox in 0..5 {
            let roll = model.archived(sandbox).map_or(1, |archive| archive.text().len());
            for room in [roll - 1, roll, roll + 44] {
                let (mut out, mut expected) = (vec![b'x'; room], vec![b'x'; room]);
                let (number, value) = model.archive(sandbox, &mut expected);
                assert_eq!(left.archive(sandbox, &mut out), (u32::from(number), value));
                assert!(out == expected, "seed {seed}, sandbox {sandbox}, {room} bytes");
                answers[usize::from(number)] += 1;
            }
        }
    }
    println!("{answers:?}");
    let met: Vec<usize> = (0..16).filter(|&number| answers[number] >= 100).collect();
    assert_eq!(met, [0, 3, 4, 8, 15]);
}
