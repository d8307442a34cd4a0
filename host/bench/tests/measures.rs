//! The measured rolls are answered as their tables suppose, the copying machine copies, and
//! the report keeps its prose.

use bench::copying::Copying;
use bench::document::with_part;
use bench::rows::{rows, Row};
use bench::states::State;
use bench::table::{thousands, Purpose, Ratio, Table};
use bench::TABLES;
use gazhuppin::{Call, Machine};

#[test]
fn the_copying_machine_rewinds_to_its_snapshot() {
    let mut machine = Copying::new();
    machine.store(63, 255, 9);
    machine.snapshot();
    machine.store(63, 255, 10);
    machine.store(0, 0, 11);
    assert_eq!((machine.byte(63, 255), machine.byte(0, 0)), (Some(10), Some(11)));
    assert_eq!(machine.rewind(), 2);
    assert_eq!((machine.byte(63, 255), machine.byte(0, 0)), (Some(9), Some(1)));
    // A page written back is not counted, and right after a rewind none is.
    machine.store(5, 100, 7);
    machine.store(5, 100, 1);
    assert_eq!((machine.rewind(), machine.rewind()), (0, 0));
}

#[test]
fn a_part_is_replaced_and_the_prose_kept() {
    let text = "before\n<!-- a -->\nold\n<!-- end a -->\nafter\n";
    let once = with_part(text, "a", "| new |\n").expect("the marks are there");
    assert_eq!(once, "before\n<!-- a -->\n\n| new |\n\n<!-- end a -->\nafter\n");
    assert_eq!(with_part(&once, "a", "| new |\n"), Some(once.clone()));
    assert_eq!(with_part(text, "b", "new"), None);
}

#[test]
fn numbers_have_commas() {
    let numbers = [0, 999, 1_000, -1_234_567].map(thousands);
    assert_eq!(numbers, ["0", "999", "1,000", "-1,234,567"]);
}

/// `works` plays each roll and looks at its replies. Of frames nothing is measured, and long rolls
/// are timed alone.
#[test]
fn measured_calls_are_accepted_or_refused_as_their_tables_say() {
    for Table { name, works, .. } in TABLES {
        let [counted, timed] = [Purpose::Count, Purpose::Time].map(|purpose| works(purpose).len());
        assert_eq!(counted == 0, ["frames", "throughput"].contains(&name), "{name}");
        assert_eq!(timed == 0, name == "frames", "{name}");
        assert!(counted == 0 || counted == timed, "{name}");
    }
}

/// State, pool and table.
type Left = (Vec<u8>, Vec<u8>, Vec<u16>);

fn made(machine: &mut Machine, calls: &[model::Call]) -> Left {
    for &model::Call { code, sandbox, parameters } in calls {
        let _ = machine.answer(&Call { code, sandbox, parameters });
    }
    (machine.state().to_vec(), machine.pool().to_vec(), machine.table().to_vec())
}

/// A timed call stands 64 times in its roll, each time with the same work: what comes after it
/// returns to the state, but for bytes of fronts that a first rewind restores.
#[test]
fn timed_calls_return_to_their_state() {
    let mut returning = 0;
    for row in rows() {
        let mut machine = Machine::start(vec![7; 16 * 256], 128).expect("right lengths");
        let before = made(&mut machine, &row.state.calls());
        let Some(group) = row.group() else {
            let once = [1, 7].contains(&row.call.code) || row.state == State::First;
            assert!(once, "{}", row.title());
            continue;
        };
        let [once, twice] = [0, 1].map(|_| made(&mut machine, &group));
        assert!(once == twice, "{}", row.title());
        let rewound = group.iter().any(|call| call.code == 8);
        assert!(rewound || before == once, "{}", row.title());
        returning += usize::from(group.len() > 1);
    }
    assert_eq!(returning, 13);
}

/// The rewinds of (a) find as many pages that differ as their names say, each time that they are
/// made.
#[test]
fn measured_rewinds_put_back_the_pages_that_their_rows_say() {
    let rewinds: Vec<Vec<u32>> =
        rows().iter().filter(|row| row.call.code == 8).map(put_back).collect();
    assert_eq!(rewinds, [[2; 3], [0; 3], [16; 3]]);
}

/// What a row's rewind answers, three times, with what returns to its state between.
fn put_back(row: &Row) -> Vec<u32> {
    let mut machine = Machine::start(bench::roll::image(), 128).expect("right lengths");
    let mut value = |call: &model::Call| {
        let &model::Call { code, sandbox, parameters } = call;
        machine.answer(&Call { code, sandbox, parameters }).expect("accepted")
    };
    row.state.calls().iter().for_each(|call| _ = value(call));
    let group = row.group().expect("it can be made again");
    (0..3).map(|_| group.iter().map(&mut value).collect::<Vec<_>>()[0]).collect()
}

#[test]
fn what_misses_its_aim_stands_in_bold() {
    let ratio = |count, time| Ratio { count, time };
    let aim = ratio(1.0, Some(1.1));
    assert_eq!(ratio(1.0, Some(1.1)).judged(&aim), ["1.00", "1.10"]);
    assert_eq!(ratio(1.01, Some(1.2)).judged(&aim), ["**1.01**", "**1.20**"]);
    assert_eq!(ratio(0.5, None).judged(&aim), ["0.50", "–"]);
    assert_eq!(ratio(0.5, Some(-0.1)).judged(&aim), ["0.50", "**-0.10**"]);
}
