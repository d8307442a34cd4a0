//! `start` and `call` over lent memory: lengths that are wrong, right next to right ones.

use gazhuppin::{Call, Refusal, Told, call, start, state_bytes};

const REPORT: Call = Call { code: 9, sandbox: 0, parameters: [0; 5] };
const NO_CALL: Call = Call { code: 11, sandbox: 9, parameters: [9; 5] };

/// Memory filled with something other than zero, so that clearing shows.
#[derive(Clone, PartialEq, Eq, Debug)]
struct Lent {
    state: Vec<u8>,
    pool: Vec<u8>,
    table: Vec<u16>,
    image: Vec<u8>,
}

impl Lent {
    fn filled([state, pool, table, image]: [usize; 4]) -> Lent {
        Lent {
            state: vec![0xa5; state],
            pool: vec![0xa5; pool],
            table: vec![0xa5; table],
            image: vec![0xa5; image],
        }
    }

    fn start(&mut self) -> Result<(), Refusal> {
        start(&mut self.state, &mut self.pool, &mut self.table, &self.image)
    }

    fn call(&mut self, asked: &Call) -> Told {
        call(&mut self.state, &mut self.pool, &mut self.table, &self.image, asked)
    }

    /// A call is refused with this number, and nothing changes.
    #[track_caller]
    fn refuses(&mut self, asked: &Call, number: u32) {
        let before = self.clone();
        assert_eq!(self.call(asked), Told { number, value: 0 });
        assert!(*self == before, "a refused call changed something");
    }
}

/// One length wrong, the others right.
fn wrong_lengths() -> Vec<[usize; 4]> {
    let bytes = state_bytes();
    let right = [bytes, 8 * 256, 512, 2 * 256];
    let wrong: [&[usize]; 4] = [
        &[0, 1, bytes - 1, bytes + 1, 2 * bytes],
        &[0, 1, 255, 257, 128 * 256 + 1, 129 * 256],
        &[0, 1, 511, 513, 1024],
        &[1, 255, 257, 64 * 256 + 1, 65 * 256],
    ];
    let with = |(at, lengths): (usize, &[usize])| {
        lengths
            .iter()
            .map(|&length| {
                let mut lengths = right;
                lengths[at] = length;
                lengths
            })
            .collect::<Vec<_>>()
    };
    wrong.into_iter().enumerate().flat_map(with).collect()
}

#[test]
fn a_start_with_a_wrong_length_clears_nothing() {
    for lengths in wrong_lengths() {
        let mut lent = Lent::filled(lengths);
        let before = lent.clone();
        assert_eq!(lent.start(), Err(Refusal::Unsound), "{lengths:?}");
        // "though the state it gives is fresh", where there is room for one.
        if lengths[0] == state_bytes() {
            assert_eq!(lent.state, vec![0; state_bytes()], "{lengths:?}");
            lent.state = before.state.clone();
        }
        assert!(lent == before, "{lengths:?}");
    }
}

#[test]
fn a_call_with_a_wrong_length_is_refused() {
    for lengths in wrong_lengths() {
        // A fresh state: where the length of another region is wrong, it alone is.
        let mut lent = Lent { state: vec![0; lengths[0]], ..Lent::filled(lengths) };
        lent.table.fill(0);
        lent.refuses(&REPORT, 3);
        lent.refuses(&NO_CALL, 2);
    }
}

#[test]
fn right_lengths() {
    let bytes = state_bytes();
    for lengths in [[bytes, 256, 512, 0], [bytes, 128 * 256, 512, 64 * 256]] {
        let mut lent = Lent::filled(lengths);
        assert_eq!(lent.start(), Ok(()));
        assert!(lent.pool.iter().all(|&byte| byte == 0));
        assert_eq!(lent.table, [0; 512]);
        lent.refuses(&REPORT, 4);
        lent.refuses(&NO_CALL, 2);
        let open = Call { code: 1, sandbox: 0, parameters: [1, 0, 0, 0, 0] };
        assert_eq!(lent.call(&open), Told { number: 0, value: 0 });
        assert_eq!(lent.call(&REPORT), Told { number: 0, value: 0 });
    }
}

/// Bytes that no start has written are refused, unless they are a sound state's.
#[test]
fn memory_that_was_never_started() {
    let mut lent = Lent::filled([state_bytes(), 256, 512, 0]);
    lent.refuses(&REPORT, 3);
    lent.refuses(&NO_CALL, 2);
    lent.state.fill(0);
    // A fresh state over a table with entries is unsound; over a clear one it is a start's.
    lent.refuses(&REPORT, 3);
    lent.table.fill(0);
    lent.refuses(&REPORT, 4);
}
