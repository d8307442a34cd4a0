//! Damaged memory: 1 to 3 bytes of state, pool or table are changed between two calls of a
//! random roll. The next call is refused, 2 or 3, and changes nothing; or the damage made
//! another sound state, and the call is answered and done as the plain machine does it from
//! there. So are archives.

use compare::layout::State;
use compare::{check_entries, check_rows, check_state, check_table, machine_of, state_of};
use compare::{layout, unsound_clauses, Clause, Frames, Kept, Lengths};
use model::{parse_line, Answering, Call, Machine, CODES, LINE_BYTES, PAGE_BYTES, SANDBOXES};
use rolls::{Case, Prng};

const DAMAGES: usize = 100_000;

/// How the calls on damaged memory were answered.
#[derive(Default, Debug)]
struct Seen {
    no_state: usize,
    unsound: usize,
    sound_accepted: usize,
    sound_refused: usize,
    /// Of those before: a clause about kept frames is broken, and the runs are others.
    kept_unsound: usize,
    kept_otherwise: usize,
    /// Archives written from another sound state.
    archives: usize,
}

impl Seen {
    fn all(&self) -> usize {
        self.no_state + self.unsound + self.sound_accepted + self.sound_refused
    }
}

/// One byte of the state, the table or the pool becomes another.
fn damage(prng: &mut Prng, kept: &mut Kept) {
    match prng.below(10) {
        0..=5 => {
            let at = place(prng, kept.state.len(), |at| kept.state[at] != 0);
            kept.state[at] = another(prng, kept.state[at]);
        }
        6..=8 => {
            let at = place(prng, kept.table.len(), |at| kept.table[at] != 0);
            let mut bytes = kept.table[at].to_le_bytes();
            let byte = prng.below(2);
            bytes[byte] = another(prng, bytes[byte]);
            kept.table[at] = u16::from_le_bytes(bytes);
        }
        _ => {
            let rows = layout::rows(&kept.state);
            let run = rows.into_iter().flatten().find(|&run| run != 0);
            let at = match run.filter(|_| prng.chance(50)) {
                Some(run) => PAGE_BYTES * run.trailing_zeros() as usize + prng.below(PAGE_BYTES),
                None => place(prng, kept.pool.len(), |at| kept.pool[at] != 0),
            };
            let at = at.min(kept.pool.len() - 1);
            kept.pool[at] = another(prng, kept.pool[at]);
        }
    }
}

/// Any place, or one that is in use: most of the memory is zero.
fn place(prng: &mut Prng, length: usize, in_use: impl Fn(usize) -> bool) -> usize {
    let used: Vec<usize> = (0..length).filter(|&at| in_use(at)).collect();
    if used.is_empty() || prng.chance(50) {
        prng.below(length)
    } else {
        prng.pick(&used)
    }
}

/// Any other byte, a neighbour, or one with a single bit changed; the latter two more often
/// give another sound state.
fn another(prng: &mut Prng, byte: u8) -> u8 {
    match prng.below(3) {
        0 => byte ^ (1 + prng.below(255)) as u8,
        1 => byte.wrapping_add(prng.pick(&[1, 255])),
        _ => byte ^ 1 << prng.below(8),
    }
}

/// A call on memory that was `whole` before it was damaged.
fn check(whole: &Kept, damaged: &Kept, image: &[u8], call: &Call, seen: &mut Seen) {
    let mut after = damaged.clone();
    let told = after.call(image, call);
    let Kept { state, pool, table } = damaged;
    let broken = unsound_clauses(state, pool, table, image);
    if !broken.is_empty() {
        let mut out = [0x5a; 90];
        let archived = damaged.archive(image, call.sandbox, &mut out);
        assert_eq!((archived.number, archived.value, out), (3, 0, [0x5a; 90]), "{broken:?}");
        let number = if CODES.contains(&call.code) { 3 } else { 2 };
        assert_eq!((told.number, told.value), (number, 0), "{broken:?}");
        assert!(after == *damaged, "a refused call changed something: {broken:?}");
        let bytes = broken == [Clause::Bytes];
        *(if bytes { &mut seen.no_state } else { &mut seen.unsound }) += 1;
        seen.kept_unsound += usize::from(broken[0] >= Clause::KeptInPool);
        return;
    }
    seen.kept_otherwise += usize::from(layout::rows(state) != layout::rows(&whole.state));
    let mut frames = Frames::of(state, table);
    let state = State::of(state).expect("sound bytes are a state's");
    let mut machine = machine_of(&state, pool, table, image);
    seen.archives += usize::from(check_archive(damaged, &machine, image, call.sandbox));
    let named = usize::from(call.sandbox).min(SANDBOXES - 1);
    let before = machine.sandbox(named).clone();
    let (number, value) = machine.answer(call);
    assert_eq!((told.number, told.value), (u32::from(number), value), "{call:?}");
    if number != 0 {
        assert!(after == *damaged, "a refused call changed something: {call:?}");
        seen.sound_refused += 1;
        return;
    }
    let program = Frames::of(&after.state, &after.table);
    frames.follow(call, value, &before, &program).expect("frames that may be taken");
    check_table(&after.table, &frames.table).expect("the table");
    check_rows(&program.rows, &frames.rows).expect("the runs");
    check_state(&after.state, &state_of(&machine, &frames).bytes()).expect("the state");
    let named = check_entries(&after.pool, &after.table, &machine).expect("the entries");
    check_unnamed(damaged, &after, &named);
    seen.sound_accepted += 1;
}

/// The archive is the plain machine's; whether one was written.
fn check_archive(damaged: &Kept, machine: &Machine, image: &[u8], sandbox: u16) -> bool {
    let roll = machine.archived(sandbox).map_or(0, |archive| archive.text().len());
    let mut out = vec![0x5a; roll + 1];
    let mut expected = out.clone();
    let (number, value) = machine.archive(sandbox, &mut expected);
    let told = damaged.archive(image, sandbox, &mut out);
    assert_eq!((told.number, told.value), (u32::from(number), value));
    assert!(out == expected, "the archive of sandbox {sandbox}");
    number == 0
}

/// A frame that no entry names was cleared if one named it before, else it is as it was,
/// though damage may have left something in it.
fn check_unnamed(before: &Kept, after: &Kept, named: &[bool]) {
    for frame in (0..named.len()).filter(|&frame| !named[frame]) {
        let bytes = |kept: &Kept| kept.pool[frame * PAGE_BYTES..][..PAGE_BYTES].to_vec();
        let freed = before.table.contains(&(frame as u16 + 1));
        let expected = if freed { vec![0; PAGE_BYTES] } else { bytes(before) };
        assert!(bytes(after) == expected, "frame {frame}, freed: {freed}");
    }
}

#[test]
fn damaged_memory_is_refused_or_another_sound_state() {
    let mut seen = Seen::default();
    for seed in 0.. {
        let case = Case::of_lines(seed, 100);
        if !Machine::fresh(&case.image, case.frames).lengths_are_right() {
            continue;
        }
        let mut prng = Prng::new(seed);
        let mut kept = Kept::filled(Lengths::of(&case));
        assert_eq!(kept.start(&case.image).number, 0);
        for call in case.roll.chunks(LINE_BYTES).filter_map(parse_line) {
            let mut damaged = kept.clone();
            for _ in 0..prng.within(1..=3) {
                damage(&mut prng, &mut damaged);
            }
            check(&kept, &damaged, &case.image, &call, &mut seen);
            kept.call(&case.image, &call);
        }
        if seen.all() >= DAMAGES {
            break;
        }
    }
    println!("{seen:?}");
    // Each outcome is met often, so that none of them goes untested.
    let Seen { no_state, unsound, sound_accepted, sound_refused, .. } = seen;
    let enough = [no_state, unsound, sound_accepted, sound_refused].map(|count| count >= 1_000);
    assert_eq!(enough, [true; 4], "{seen:?}");
    assert!(seen.kept_unsound >= 1_000 && seen.kept_otherwise >= 1_000, "{seen:?}");
    assert!(seen.archives >= 1_000, "{seen:?}");
}
