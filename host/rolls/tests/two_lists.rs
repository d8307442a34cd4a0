//! The last demand on lists: what a sandbox answers after its rewind does not tell
//! what happened between its snapshot and the rewind. "Each of these calls has the
//! same number and value in both, apart from the value of an accepted report."

use model::{Answering, Call, Fault, Faulty, Machine, Reply};
use rolls::{without_report_values, Pair};

const PAIRS: u64 = 2_000;

/// Whether a machine built with a fault answers alike in both lists; `None` where
/// nothing is claimed.
fn alike(pair: &Pair, fault: Fault) -> Option<bool> {
    let answers = pair.lists.each_ref().map(|list| {
        let mut machine = Faulty::fresh(&pair.image, pair.frames, fault);
        pair.compared(list, &mut machine).map(|answers| without_report_values(&answers))
    });
    let [first, second] = answers;
    Some(first? == second?)
}

#[test]
fn the_lists_are_such_as_the_document_compares() {
    for seed in 0..100 {
        let pair = Pair::random(seed);
        let [first, second] = &pair.lists;
        assert_eq!(first.snapshot, second.snapshot);
        assert_eq!(first.calls[..=first.snapshot], second.calls[..=second.snapshot]);
        let named = |calls: &[Call]| {
            let named = calls.iter().filter(|call| call.sandbox == pair.sandbox);
            named.copied().collect::<Vec<_>>()
        };
        assert_eq!(named(&first.calls[first.rewind..]), named(&second.calls[second.rewind..]));
        for list in &pair.lists {
            let mut machine = Machine::fresh(&pair.image, pair.frames);
            let numbers: Vec<u16> = list.calls.iter().map(|call| machine.answer(call).0).collect();
            assert_eq!((numbers[list.snapshot], numbers[list.rewind]), (0, 0));
            assert_eq!((list.calls[list.snapshot].code, list.calls[list.rewind].code), (7, 8));
        }
    }
}

/// The values of the accepted calls with a code.
fn values_of(code: u16, answers: &[(Call, Reply)]) -> Vec<u32> {
    let accepted = answers.iter().filter(|(call, (number, _))| call.code == code && *number == 0);
    accepted.map(|(_, (_, value))| *value).collect()
}

#[test]
fn only_the_value_of_an_accepted_report_is_struck_out() {
    let answer = |code, reply| (Call { code, sandbox: 0, parameters: [0; 5] }, reply);
    for code in 0..=11 {
        for reply in [(0, 0), (0, 64), (8, 0)] {
            let struck = without_report_values(&[answer(code, reply)]);
            let expected = if code == 9 { (reply.0, 0) } else { reply };
            assert_eq!(struck, [answer(code, expected)]);
        }
    }
}

#[test]
fn answers_after_a_rewind_do_not_tell_what_was_before_it() {
    let (mut compared, mut accepted, mut compares, mut rewinds) = (0, 0, [0, 0], [0, 0]);
    let (mut secrets, mut reports_differ) = (0, 0);
    for seed in 0..PAIRS {
        let pair = Pair::random(seed);
        let [first, second] = pair.lists.each_ref().map(|list| {
            let mut machine = Machine::fresh(&pair.image, pair.frames);
            pair.compared(list, &mut machine).expect("snapshot and rewind are accepted")
        });
        assert_eq!(without_report_values(&first), without_report_values(&second), "seed {seed}");
        compared += first.len();
        accepted += first.iter().filter(|(_, (number, _))| *number == 0).count();
        // Compare is told without exception, and so is each later rewind: as they were answered,
        // nothing struck out.
        let [of_compares, of_rewinds] = [10, 8].map(|code| {
            let [values, others] = [&first, &second].map(|answers| values_of(code, answers));
            assert_eq!(values, others, "seed {seed}");
            values
        });
        of_compares.iter().for_each(|&value| compares[usize::from(value == 64)] += 1);
        of_rewinds.iter().for_each(|&value| rewinds[usize::from(value == 0)] += 1);
        reports_differ += usize::from(first != second);
        secrets += usize::from(pair.before_rewind(0) != pair.before_rewind(1));
    }
    println!("{compared} calls compared, {accepted} of them accepted");
    println!("{compares:?} compares among them found a difference, or none");
    println!("{rewinds:?} rewinds among them put pages back, or none");
    println!("{secrets} pairs differ before the rewind, {reports_differ} in a report after it");
    assert!(2 * accepted > compared, "too few accepted calls");
    assert!(secrets as u64 > PAIRS / 2, "too few secrets");
    assert!(reports_differ > 20, "the exception for reports is hardly met");
    assert!(compares.iter().all(|&count| count > 1_000), "too few compares: {compares:?}");
    assert!(rewinds.iter().all(|&count| count > 400), "too few rewinds: {rewinds:?}");
}

/// Machines that let something through a rewind.
#[test]
fn pairs_tell_the_machines_that_leak() {
    let leaking = [
        Fault::HandsOutRewoundPlace,
        Fault::SearchesPastRewoundPlace,
        Fault::DropsSnapshotFrame,
        Fault::ZeroUnderRewoundImagePage,
        Fault::RewindKeepsRights,
        Fault::RewindLeavesPagesDirty,
        Fault::RewindsOnlyOnce,
        Fault::RewindLeavesNewAreas,
        Fault::StaleBytesInNewPage,
        // Kept frames that are not cleared are read by the next request; and a machine that
        // charges them tells how many there are.
        Fault::KeptFramesNotCleared,
        Fault::KeptCharged,
        // A front that outlasts the rewind is told by a compare, or by the next rewind.
        Fault::CompareTakesFrontForDifference,
        Fault::PutBackCountsFronts,
        // The next rewind tells what the first one put back.
        Fault::PutBackToldOneBehind,
        Fault::PutBackAddsUp,
    ];
    for fault in leaking {
        let seed = (0..PAIRS).find(|&seed| alike(&Pair::random(seed), fault) == Some(false));
        let seed = seed.unwrap_or_else(|| panic!("{fault:?} passed {PAIRS} pairs"));
        println!("{fault:?}: told by the pair of seed {seed}");
    }
}

/// "a machine refusing all; one with a constant reply. The last two would pass the
/// equal-runs part of demand 3."
#[test]
fn pairs_alone_do_not_tell_a_machine_that_refuses_all_or_is_constant() {
    for seed in 0..100 {
        let pair = Pair::random(seed);
        assert_eq!(alike(&pair, Fault::RefusesAll), None);
        assert_eq!(alike(&pair, Fault::ConstantReply), Some(true));
    }
}
