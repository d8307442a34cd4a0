//! The archive of a snapshot, over lent memory and from a machine: what it writes, what it is
//! refused for, and that it touches nothing else.

use gazhuppin::{Address, Backing, Call, LINE_BYTES, MOST_ARCHIVE_LINES, Machine, Place, Refusal};
use gazhuppin::{Rights, Told, archive, call, start, state_bytes};
use std::fs;
use std::path::Path;

const FRAMES: usize = 16;

#[derive(Clone, PartialEq, Eq)]
struct Lent {
    state: Vec<u8>,
    pool: Vec<u8>,
    table: Vec<u16>,
    image: Vec<u8>,
}

impl Lent {
    /// Sandbox 1 has a snapshot of five lines, sandbox 2 is open without one, 0 and 3 are closed.
    fn with_snapshot() -> Lent {
        let (state, pool) = (vec![0xa5; state_bytes()], vec![0xa5; FRAMES * 256]);
        let mut lent = Lent { state, pool, table: vec![0xa5; 512], image: vec![7; 2 * 256] };
        let Lent { state, pool, table, image } = &mut lent;
        start(state, pool, table, image).expect("right lengths");
        let calls = [
            (1, 1, [8, 0, 0, 0, 0]),
            (1, 2, [8, 0, 0, 0, 0]),
            (2, 1, [3, 2, 1, 0, 3]),
            (6, 1, [800, 9, 0, 0, 0]),
            (4, 1, [3, 2, 1, 0, 0]),
            (7, 1, [0; 5]),
            (2, 1, [9, 1, 0, 0, 3]),
            (6, 1, [9 * 256, 1, 0, 0, 0]),
        ];
        for (code, sandbox, parameters) in calls {
            let told = call(state, pool, table, image, &Call { code, sandbox, parameters });
            assert_eq!(told.number, 0, "call {code}");
        }
        lent
    }

    fn archive(&self, sandbox: u16, out: &mut [u8]) -> Told {
        archive(&self.state, &self.pool, &self.table, &self.image, sandbox, out)
    }

    /// Refused with this number and value 0, whatever the length of the output, which stays.
    #[track_caller]
    fn refuses(&self, sandbox: u16, number: u32) {
        for length in [0, 1, 43, 214, 215, 1_000] {
            let mut out = vec![0x5a; length];
            let before = self.clone();
            assert_eq!(self.archive(sandbox, &mut out), Told { number, value: 0 });
            assert!(out.iter().all(|&byte| byte == 0x5a), "output of {length} bytes");
            assert!(*self == before, "a refused archive changed memory");
        }
    }
}

const LINES: &[u8] = b"     1     1     8     0     0     0     0
     2     1     3     2     1     0     3
     6     1   800     9     0     0     0
     4     1     3     2     1     0     0
     7     1     0     0     0     0     0
";

#[test]
fn exactly_enough_output_and_more() {
    let lent = Lent::with_snapshot();
    for length in [215, 216, 257, 258, 1_000, LINE_BYTES * MOST_ARCHIVE_LINES] {
        let (mut out, before) = (vec![0x5a; length], lent.clone());
        assert_eq!(lent.archive(1, &mut out), Told { number: 0, value: 5 });
        assert_eq!(out[..215], *LINES);
        assert!(out[215..].iter().all(|&byte| byte == 0x5a), "output of {length} bytes");
        assert!(lent == before, "an archive changed memory");
    }
}

#[test]
fn output_that_is_too_short_is_refused_15_and_untouched() {
    let lent = Lent::with_snapshot();
    for length in [0, 1, 42, 43, 44, 86, 171, 172, 213, 214] {
        let mut out = vec![0x5a; length];
        assert_eq!(lent.archive(1, &mut out), Told { number: 15, value: 0 }, "{length} bytes");
        assert!(out.iter().all(|&byte| byte == 0x5a), "output of {length} bytes");
    }
}

#[test]
fn no_such_sandbox_none_open_and_no_snapshot() {
    let lent = Lent::with_snapshot();
    for sandbox in [0, 3, 4, 5, 8, 256, 65_535] {
        lent.refuses(sandbox, 4);
    }
    lent.refuses(2, 8);
}

/// One length wrong, the others right: 3 comes before 4, 8 and 15.
#[test]
fn wrong_lengths() {
    let right = Lent::with_snapshot();
    let lengths: [&[usize]; 4] = [
        &[0, 1, 931, 933, 2 * 932],
        &[0, 1, 255, FRAMES * 256 - 1, FRAMES * 256 + 1, 129 * 256],
        &[0, 1, 511, 513, 1_024],
        &[1, 255, 257, 2 * 256 - 1, 64 * 256 + 1, 65 * 256],
    ];
    for (region, lengths) in lengths.into_iter().enumerate() {
        for &length in lengths {
            let mut lent = right.clone();
            match region {
                0 => lent.state.resize(length, 0),
                1 => lent.pool.resize(length, 0),
                2 => lent.table.resize(length, 0),
                _ => lent.image.resize(length, 7),
            }
            for sandbox in [0, 1, 2, 4] {
                lent.refuses(sandbox, 3);
            }
        }
    }
}

/// Lengths that are right in themselves, but not those of the start: an image without the pages
/// that are mapped, and a pool without the frames that are held or the shares.
#[test]
fn other_right_lengths_are_unsound() {
    let mut lent = Lent::with_snapshot();
    lent.image.truncate(256);
    lent.refuses(1, 3);
    let mut lent = Lent::with_snapshot();
    lent.pool.truncate(15 * 256);
    lent.refuses(1, 3);
}

#[test]
fn damaged_memory() {
    let right = Lent::with_snapshot();
    // Bytes that no state has: marks that are neither 0 nor 1.
    for at in [0, 2, 229, 231] {
        let mut lent = right.clone();
        lent.state[at] = 2;
        lent.refuses(1, 3);
    }
    // A closed sandbox with a share, and shares above the pool.
    let mut lent = right.clone();
    lent.state[1] = 1;
    lent.refuses(1, 3);
    let mut lent = right.clone();
    lent.state[230] = 9;
    lent.refuses(1, 3);
    // A front where nothing is mapped, a frame named twice, and one that the pool does not have.
    for (at, entry) in [(0, 1), (128 + 3, 16), (128 + 9, 17)] {
        let mut lent = right.clone();
        lent.table[at] = entry;
        lent.refuses(1, 3);
    }
}

#[test]
fn no_call_answers_15() {
    assert_eq!(Refusal::of(15), Some(Refusal::OutputTooShort));
    let machine = Machine::start([], 8).expect("right lengths");
    assert_eq!(machine.archive(0), Err(Refusal::NotOpen), "it makes room for the longest");
}

/// 64 pages in eight areas with rights 1, anonymous and image in turn, every byte differing.
#[test]
fn the_longest_archive() {
    let mut machine = Machine::start(vec![200; 64 * 256], 128).expect("right lengths");
    machine.open(3, 128).expect("the pool is free");
    for area in 0..8 {
        let (first, image) = (8 * area, Backing::Image(8 * area));
        let backing = if area % 2 == 0 { Backing::Anonymous } else { image };
        let mapped = machine.map(3, Place::At(first), 8, backing, Rights::ReadWrite);
        assert_eq!(mapped, Ok(first));
    }
    for at in 0..16_384 {
        machine.write(3, Address(at), 1 + (at % 199) as u8).expect("rights 3");
    }
    machine.protect(3, 0..64, Rights::Read).expect("all mapped");
    assert_eq!(machine.snapshot(3), Ok(64));
    let roll = machine.archive(3).expect("a snapshot");
    assert_eq!(roll.len(), LINE_BYTES * MOST_ARCHIVE_LINES);
    let mut model = model::Machine::fresh(machine.image(), 128);
    let replies = model::play_on(&roll, &mut model);
    assert!(replies.chunks(19).all(|reply| reply[6..12] == *b"     0"));
    assert!(model.archived(3).expect("a snapshot").text() == roll);
    assert!(gazhuppin::play_fresh(&roll, machine.image(), 128).replies == replies);
    // One byte less is too short, and nothing is touched.
    let mut out = vec![0x5a; roll.len() - 1];
    let (state, pool, table) = (machine.state(), machine.pool(), machine.table());
    let told = archive(state, pool, table, machine.image(), 3, &mut out);
    assert_eq!(told.result(), Err(Refusal::OutputTooShort));
    assert!(out.iter().all(|&byte| byte == 0x5a));
}

/// After each line of the example rolls: the archive of every sandbox is the model's.
#[test]
fn the_example_rolls() {
    let examples = Path::new(env!("CARGO_MANIFEST_DIR")).join("../../examples");
    let (mut archives, mut refused) = (0, 0);
    for entry in fs::read_dir(examples).expect("the examples") {
        let roll = entry.expect("an example").path();
        if roll.extension().is_none_or(|extension| extension != "roll") {
            continue;
        }
        let image = fs::read(roll.with_extension("image")).unwrap_or_default();
        // An image of a wrong length: there is no machine to ask.
        let Ok(mut machine) = Machine::start(image, 128) else { continue };
        let mut plain = model::Machine::fresh(machine.image(), 128);
        for line in fs::read(&roll).expect("the roll").chunks(LINE_BYTES) {
            let Some(asked) = model::parse_line(line) else { continue };
            let model::Call { code, sandbox, parameters } = asked;
            let _ = machine.answer(&Call { code, sandbox, parameters });
            model::Answering::answer(&mut plain, &asked);
            for sandbox in [sandbox, 0, 4] {
                let expected = plain.archived(sandbox).map(|archive| archive.text());
                let expected = expected.map_err(|refusal| Refusal::of(refusal as u32));
                let told = machine.archive(sandbox).map_err(Some);
                assert!(told == expected, "{}: sandbox {sandbox}", roll.display());
                *(if told.is_ok() { &mut archives } else { &mut refused }) += 1;
            }
        }
    }
    assert!(archives > 500 && refused > 500, "{archives} archives, {refused} refused");
}
