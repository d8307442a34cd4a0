//! `Machine`: its methods make the calls that their words say, over memory of its own.

use gazhuppin::{Address, Backing, Call, Machine, Place, Refusal, Rights};
use std::fs;
use std::path::Path;

/// Two machines of the same lengths, one for methods and one for numbers.
struct Both {
    methods: Machine,
    numbers: Machine,
}

impl Both {
    fn start() -> Both {
        let machine = Machine::start([9; 4 * 256], 64).expect("right lengths");
        Both { methods: machine.clone(), numbers: machine }
    }

    /// A method and the call in numbers answer the same and leave the same.
    #[track_caller]
    fn same<T: Into<u32>>(
        &mut self,
        method: impl Fn(&mut Machine) -> Result<T, Refusal>,
        [code, sandbox, p1, p2, p3, p4, p5]: [u16; 7],
    ) -> Result<u32, Refusal> {
        let told = method(&mut self.methods).map(T::into);
        let call = Call { code, sandbox, parameters: [p1, p2, p3, p4, p5] };
        assert_eq!(told, self.numbers.answer(&call));
        assert!(self.methods == self.numbers);
        told
    }
}

/// The page, or the number after the last one.
fn page_or_64(told: Result<Option<u8>, Refusal>) -> Result<u8, Refusal> {
    told.map(|page| page.unwrap_or(64))
}

/// A method without a value answers value 0.
fn zero(told: Result<(), Refusal>) -> Result<u32, Refusal> {
    told.map(|()| 0)
}

#[test]
fn each_method_is_its_call() {
    let mut both = Both::start();
    let anonymous = Backing::Anonymous;
    let told = [
        both.same(|m| zero(m.open(2, 32)), [1, 2, 32, 0, 0, 0, 0]),
        both.same(
            |m| m.map(2, Place::At(3), 4, anonymous, Rights::ReadWrite),
            [2, 2, 3, 4, 0, 0, 3],
        ),
        both.same(
            |m| m.map(2, Place::LowestGap, 2, Backing::Image(1), Rights::Read),
            [2, 2, 64, 2, 1, 1, 1],
        ),
        both.same(|m| zero(m.write(2, Address::of(3, 9), 200)), [6, 2, 777, 200, 0, 0, 0]),
        both.same(|m| m.read(2, Address(777)), [5, 2, 777, 0, 0, 0, 0]),
        both.same(|m| m.read(2, Address(0)), [5, 2, 0, 0, 0, 0, 0]),
        both.same(|m| page_or_64(m.compare(2)), [10, 2, 0, 0, 0, 0, 0]),
        both.same(|m| m.snapshot(2), [7, 2, 0, 0, 0, 0, 0]),
        both.same(|m| page_or_64(m.compare(2)), [10, 2, 0, 0, 0, 0, 0]),
        both.same(|m| zero(m.protect(2, 0..2, Rights::ReadWrite)), [4, 2, 0, 2, 3, 0, 0]),
        both.same(|m| zero(m.unmap(2, 4..7)), [3, 2, 4, 3, 0, 0, 0]),
        both.same(|m| page_or_64(m.compare(2)), [10, 2, 0, 0, 0, 0, 0]),
        both.same(|m| m.report(2), [9, 2, 0, 0, 0, 0, 0]),
        both.same(|m| m.rewind(2), [8, 2, 0, 0, 0, 0, 0]),
        both.same(|m| page_or_64(m.compare(2)), [10, 2, 0, 0, 0, 0, 0]),
        both.same(|m| m.read(2, Address::of(5, 0)), [5, 2, 1280, 0, 0, 0, 0]),
    ];
    // Before the snapshot compare is refused; after it, unchanged, page 0's rights, unchanged.
    let mut expected = [0, 3, 0, 0, 200, 9, 0, 6, 64, 0, 0, 0, 1, 0, 64, 0].map(Ok);
    expected[6] = Err(Refusal::NoSnapshot);
    assert_eq!(told, expected);
}

/// "Unmap now passes over unmapped pages, and a range with none mapped is accepted and changes
/// nothing. Refusal 9 remains for protect, read and write."
#[test]
fn unmap_passes_over_gaps() {
    let mut machine = Machine::start([], 16).expect("right lengths");
    machine.open(0, 16).expect("open");
    let nothing_mapped = machine.clone();
    assert_eq!(machine.unmap(0, 0..64), Ok(()));
    assert!(machine == nothing_mapped, "an unmap of nothing changed something");
    for page in [2, 5, 9] {
        let place = Place::At(page);
        assert_eq!(machine.map(0, place, 2, Backing::Anonymous, Rights::ReadWrite), Ok(page));
        assert_eq!(machine.write(0, Address::of(page, 0), page), Ok(()));
    }
    assert_eq!(machine.snapshot(0), Ok(6));
    let clean = machine.clone();
    for gap in [0..2, 4..5, 7..9, 11..64] {
        assert_eq!(machine.unmap(0, gap.clone()), Ok(()), "{gap:?}");
        assert!(machine == clean, "an unmap of {gap:?} changed something");
        assert_eq!(machine.protect(0, gap.clone(), Rights::Read), Err(Refusal::NotMapped));
    }
    assert_eq!(machine.protect(0, 3..10, Rights::Read), Err(Refusal::NotMapped));
    assert_eq!(machine.unmap(0, 3..10), Ok(()));
    for page in 0..64 {
        let mapped = [2, 10].contains(&page);
        let read = machine.read(0, Address::of(page, 255));
        assert_eq!(read, if mapped { Ok(0) } else { Err(Refusal::NotMapped) }, "page {page}");
    }
    assert_eq!(machine.report(0), Ok(3), "the backs of pages 2, 5 and 9");
    assert_eq!(machine.unmap(0, 3..10), Ok(()));
    assert_eq!(machine.report(0), Ok(3), "the same");
    assert_eq!(machine.rewind(0), Ok(0), "no page was written");
    assert!(machine == clean, "the rewound machine is another");
}

/// "Rewind answers the number of committed pages still mapped whose bytes differed from the
/// snapshot".
#[test]
fn a_rewind_counts_the_pages_that_it_puts_back() {
    let mut machine = Machine::start([7; 256], 32).expect("right lengths");
    machine.open(0, 16).expect("open");
    assert_eq!(machine.rewind(0), Err(Refusal::NoSnapshot));
    let anonymous = machine.map(0, Place::At(0), 3, Backing::Anonymous, Rights::ReadWrite);
    let image = machine.map(0, Place::At(3), 1, Backing::Image(0), Rights::ReadWrite);
    assert_eq!((anonymous, image), (Ok(0), Ok(3)));
    machine.write(0, Address::of(0, 9), 1).expect("page 0 gets a back");
    machine.snapshot(0).expect("the first");
    let mut put_back = |bytes: &[(u8, u8, u8)], unmapped: std::ops::Range<u8>| {
        for &(page, offset, byte) in bytes {
            machine.write(0, Address::of(page, offset), byte).expect("mapped");
        }
        machine.unmap(0, unmapped).expect("unmap passes over gaps");
        [machine.rewind(0), machine.rewind(0)]
    };
    let nothing = 63..64;
    assert_eq!(put_back(&[], nothing.clone()), [Ok(0), Ok(0)]);
    // With a back, without, and over the image.
    assert_eq!(put_back(&[(0, 9, 2), (1, 255, 2), (3, 0, 2)], nothing.clone()), [Ok(3), Ok(0)]);
    assert_eq!(put_back(&[(0, 9, 2), (0, 9, 1), (3, 0, 7)], nothing), [Ok(0), Ok(0)]);
    assert_eq!(put_back(&[(0, 9, 2), (1, 0, 2)], 1..2), [Ok(1), Ok(0)]);
}

/// "At rewind, the frames of each uncommitted anonymous area, if any, are cleared and kept as one
/// run"; "An anonymous map at 64 takes" a run.
#[test]
fn the_frames_of_a_finished_request_are_kept() {
    let mut machine = Machine::start([7; 256], 16).expect("right lengths");
    let map = |machine: &mut Machine, place, pages, backing| {
        machine.map(0, place, pages, backing, Rights::ReadWrite).expect("room")
    };
    machine.open(0, 8).expect("open");
    machine.snapshot(0).expect("the first");
    for request in 1..=3 {
        assert_eq!(map(&mut machine, Place::LowestGap, 3, Backing::Anonymous), 0);
        for address in [0, 255, 256, 511, 512, 767].map(Address) {
            assert_eq!(machine.read(0, address), Ok(0), "request {request}");
            assert_eq!(machine.write(0, address, request), Ok(()));
        }
        assert_eq!(machine.report(0), Ok(3), "request {request}");
        assert_eq!(machine.rewind(0), Ok(0), "no page of the snapshot was disturbed");
        assert_eq!(machine.report(0), Ok(3), "they are kept, and no entry names them");
        assert_eq!(machine.table(), [0; 512]);
        assert_eq!(machine.pool(), [0; 16 * 256], "and they are zero");
        assert_eq!(machine.compare(0), Ok(None));
    }
    // Named maps and image maps take none; the whole share can be mapped beside them.
    map(&mut machine, Place::At(8), 7, Backing::Anonymous);
    map(&mut machine, Place::LowestGap, 1, Backing::Image(0));
    assert_eq!(machine.report(0), Ok(3));
    assert_eq!(machine.table(), [0; 512]);
    // Above the share a write gives up one of them first.
    for (page, held) in (8..15).zip([4, 5, 6, 7, 8, 8, 8]) {
        assert_eq!(machine.write(0, Address::of(page, 1), 1), Ok(()));
        assert_eq!(machine.report(0), Ok(held), "page {page}");
    }
    assert_eq!(machine.unmap(0, 0..64), Ok(()));
    assert_eq!(machine.report(0), Ok(1), "one is left, and an unmap keeps none");
}

#[test]
fn what_has_no_number_is_outside_the_limits() {
    let mut machine = Machine::start([], 8).expect("right lengths");
    machine.open(0, 8).expect("open");
    let before = machine.clone();
    let outside = Err(Refusal::OutsideLimits);
    for page in 64..=255 {
        let map = machine.map(0, Place::At(page), 1, Backing::Anonymous, Rights::Read);
        assert_eq!(map.map(|_| ()), outside, "page {page}");
    }
    #[allow(clippy::reversed_empty_ranges)]
    for pages in [0..0, 63..63, 5..4, 255..0, 0..65, 63..65, 0..255] {
        assert_eq!(machine.unmap(0, pages.clone()), outside, "{pages:?}");
        assert_eq!(machine.protect(0, pages.clone(), Rights::Read), outside, "{pages:?}");
    }
    assert_eq!(machine.read(0, Address(16_384)).map(|_| ()), outside);
    assert!(machine == before, "a refused call changed something");
}

#[test]
fn lengths_at_the_start() {
    for frames in [0, 129, 130, usize::MAX / 256 + 1, usize::MAX] {
        assert_eq!(Machine::start([], frames).unwrap_err(), Refusal::Unsound, "{frames} frames");
    }
    for bytes in [1, 255, 257, 64 * 256 + 1, 65 * 256] {
        assert_eq!(Machine::start(vec![0; bytes], 8).unwrap_err(), Refusal::Unsound, "{bytes}");
    }
    for (bytes, frames) in [(0, 1), (64 * 256, 128)] {
        let machine = Machine::start(vec![1; bytes], frames).expect("right lengths");
        assert_eq!((machine.image().len(), machine.pool().len()), (bytes, 256 * frames));
        assert_eq!(machine.table(), [0; 512]);
    }
}

/// The example rolls, a call at a time: each answer is the one expected of the line.
#[test]
fn the_example_rolls() {
    let examples = Path::new(env!("CARGO_MANIFEST_DIR")).join("../../examples");
    let (mut rolls, mut calls) = (0, 0);
    for entry in fs::read_dir(examples).expect("the examples") {
        let roll = entry.expect("an example").path();
        if roll.extension().is_none_or(|extension| extension != "roll") {
            continue;
        }
        let image = fs::read(roll.with_extension("image")).unwrap_or_default();
        // An image of a wrong length: there is no machine to call.
        let Ok(mut machine) = Machine::start(image, 128) else { continue };
        let answers = fs::read(roll.with_extension("answers")).expect("answers");
        let lines = fs::read(&roll).expect("the roll");
        for (index, line) in lines.chunks(43).enumerate() {
            let Some(asked) = model::parse_line(line) else { continue };
            let call =
                Call { code: asked.code, sandbox: asked.sandbox, parameters: asked.parameters };
            let told = machine.answer(&call);
            let (number, value) = told.map_or_else(|why| (why.number(), 0), |value| (0, value));
            let reply = format!("{:>6}{number:>6}{value:>6}\n", index + 1);
            assert_eq!(reply.as_bytes(), &answers[19 * index..][..19], "{}", roll.display());
            calls += 1;
        }
        rolls += 1;
    }
    assert!(rolls >= 27 && calls > 1_000, "only {calls} calls of {rolls} rolls");
}
