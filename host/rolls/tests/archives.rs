//! Archives of random rolls: "Played from a fresh state with the same image and pool, the roll
//! gives a sandbox whose snapshot and present pages both equal the written snapshot in mappings,
//! rights and bytes. Two snapshots under one image give equal rolls only if they agree in these."

use model::{
    parse_line, play_on, snapshots_agree, wrong_archive, Answering, Archive, ArchiveFault,
};
use model::{Backing, Machine, Page, Pages, Reply, LINE_BYTES, PAGES, SANDBOXES};
use rolls::{shrink, Case, Prng};

const ROLLS: u64 = 2_000;
const TELLING_ROLLS: u64 = 300;

fn played(case: &Case) -> Machine {
    let mut machine = Machine::fresh(&case.image, case.frames);
    for call in case.roll.chunks(LINE_BYTES).filter_map(parse_line) {
        machine.answer(&call);
    }
    machine
}

/// The sandboxes of a machine that have a snapshot, each with its archive.
fn archives(machine: &Machine) -> Vec<(usize, Archive)> {
    let of = |number: usize| machine.archived(number as u16).ok().map(|archive| (number, archive));
    (0..SANDBOXES).filter_map(of).collect()
}

fn copy(machine: &Machine, number: usize) -> &Pages {
    machine.sandbox(number).copy.as_ref().expect("a snapshot")
}

#[test]
fn every_archive_rebuilds_its_snapshot_and_is_its_own_archive() {
    let (mut replayed, mut lines) = (0, 0);
    for case in (0..ROLLS).map(Case::random) {
        let machine = played(&case);
        for (number, archive) in archives(&machine) {
            let mut rebuilt = Machine::fresh(&case.image, case.frames);
            let answers = play_on(&archive.text(), &mut rebuilt);
            assert!(
                answers.chunks(19).all(|reply| reply[6..12] == *b"     0"),
                "a line is refused"
            );
            let (written, sandbox) = (copy(&machine, number), rebuilt.sandbox(number));
            assert!(snapshots_agree(copy(&rebuilt, number), written));
            assert!(snapshots_agree(&sandbox.pages, written));
            assert_eq!(sandbox.share, machine.sandbox(number).share);
            assert!((0..SANDBOXES).all(|at| at == number || !rebuilt.sandbox(at).open));
            assert_eq!(archives(&rebuilt), [(number, archive.clone())]);
            (replayed, lines) = (replayed + 1, lines + archive.calls().len());
        }
    }
    println!("{replayed} archives replayed, {lines} lines");
    assert!(replayed > 2_000 && lines > 10_000, "{replayed} archives, {lines} lines");
}

/// One thing of a snapshot altered, so that another one results: a byte, rights, a backing, or
/// whether a page is mapped.
fn altered(prng: &mut Prng, pages: &Pages, image_pages: usize) -> Pages {
    let mut other = *pages;
    let mapped: Vec<usize> = (0..PAGES).filter(|&at| pages[at].mapped).collect();
    if mapped.is_empty() || prng.chance(20) {
        let at = prng.below(PAGES);
        let fresh = Page { mapped: true, rights: 3, committed: true, ..Page::FRESH };
        other[at] = if pages[at].mapped { Page::FRESH } else { fresh };
        return other;
    }
    let page = &mut other[prng.pick(&mapped)];
    match prng.below(3) {
        0 => page.bytes[prng.below(256)] ^= 1 + prng.below(255) as u8,
        1 if image_pages > 1 => {
            let others = (0..image_pages).map(Backing::Image).filter(|&b| b != page.backing);
            page.backing = prng.pick(&others.collect::<Vec<_>>());
        }
        _ => page.rights = 4 - page.rights,
    }
    other
}

/// The same in everything that counts: marks, and what unmapped pages hold, are others.
fn alike(prng: &mut Prng, pages: &Pages) -> Pages {
    pages.map(|page| match page.mapped {
        true => Page { front: prng.chance(50), back: prng.chance(50), ..page },
        false => Page { bytes: [prng.byte(); 256], rights: 3, back: prng.chance(50), ..page },
    })
}

#[test]
fn archives_are_equal_just_where_snapshots_agree() {
    let mut altered_ones = 0;
    for seed in 0..ROLLS {
        let machine = played(&Case::random(seed));
        let mut prng = Prng::new(seed);
        for (number, archive) in archives(&machine) {
            let (written, share) = (copy(&machine, number), machine.sandbox(number).share);
            let of = |pages: &Pages| Archive::of(number as u16, share, pages, machine.image());
            let same = alike(&mut prng, written);
            assert!(snapshots_agree(&same, written) && of(&same) == archive, "seed {seed}");
            for _ in 0..8 {
                let other = altered(&mut prng, written, machine.image().len());
                assert!(!snapshots_agree(&other, written), "seed {seed}: nothing was altered");
                assert!(of(&other).text() != archive.text(), "seed {seed}");
                altered_ones += 1;
            }
            // Share and number show as well.
            let more = Archive::of(number as u16, share + 1, written, machine.image());
            let renamed = Archive::of(number as u16 + 1, share, written, machine.image());
            assert!(more.text() != archive.text() && renamed.text() != archive.text());
        }
    }
    assert!(altered_ones > 15_000, "{altered_ones}");
}

/// Any two snapshots of the rolls that have no image.
#[test]
fn any_two_archives_are_equal_just_where_snapshots_agree() {
    let cases = (0..ROLLS).map(Case::random).filter(|case| case.image.is_empty());
    let machines: Vec<Machine> = cases.map(|case| played(&case)).collect();
    let all = machines.iter().flat_map(|machine| {
        let of = |(number, archive): (usize, Archive)| {
            (machine.sandbox(number).share, number, copy(machine, number), archive.text())
        };
        archives(machine).into_iter().map(of)
    });
    let all: Vec<_> = all.collect();
    let (mut equal, mut different) = (0, 0);
    for (index, (share, number, pages, text)) in all.iter().enumerate() {
        for (other_share, other_number, other_pages, other_text) in &all[..index] {
            let same = (share, number) == (other_share, other_number);
            let agree = same && snapshots_agree(pages, other_pages);
            assert_eq!(text == other_text, agree);
            *(if agree { &mut equal } else { &mut different }) += 1;
        }
    }
    println!("{} archives, {equal} pairs alike, {different} not", all.len());
    assert!(equal > 300 && different > 100_000, "{equal} and {different}");
}

/// What a writer answers and leaves.
fn written(
    fault: ArchiveFault,
    machine: &Machine,
    sandbox: u16,
    length: usize,
) -> (Reply, Vec<u8>) {
    let mut out = vec![0xa5; length];
    let reply = match fault {
        ArchiveFault::None => machine.archive(sandbox, &mut out),
        _ => wrong_archive(fault, machine, sandbox, &mut out),
    };
    (reply, out)
}

/// Whether an archive of the machine tells a wrong writer, in output of several lengths.
fn tells(machine: &Machine, fault: ArchiveFault) -> bool {
    (0..=SANDBOXES as u16).any(|sandbox| {
        let roll = machine.archived(sandbox).map_or(1, |archive| archive.text().len());
        [roll - 1, roll, roll + 1].into_iter().any(|length| {
            let right = written(ArchiveFault::None, machine, sandbox, length);
            written(fault, machine, sandbox, length) != right
        })
    })
}

#[test]
fn archives_of_random_rolls_tell_every_wrong_writer() {
    // What the right machine keeps is the same whatever the fault.
    let cases: Vec<Case> = (0..TELLING_ROLLS).map(Case::random).collect();
    let machines: Vec<Machine> = cases.iter().map(played).collect();
    for fault in ArchiveFault::ALL {
        let telling = machines.iter().position(|machine| tells(machine, fault));
        let seed = telling.unwrap_or_else(|| panic!("{fault:?} passed {TELLING_ROLLS} rolls"));
        let small = shrink(&cases[seed], |case| tells(&played(case), fault));
        let lines = small.roll.len().div_ceil(LINE_BYTES);
        println!("{fault:?}: told by the roll of seed {seed}, and by {lines} lines:");
        println!("{}", String::from_utf8_lossy(&small.roll));
        assert!(lines <= 8, "{fault:?}: {lines} lines");
    }
}
