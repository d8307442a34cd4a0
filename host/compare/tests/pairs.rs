//! Demand 3's two lists, played by the proved machine: what it answers after a rewind
//! does not tell what happened before it.

use compare::{compare_pair, PairSeen};
use rolls::Pair;

const PAIRS: u64 = 3_000;

#[test]
fn answers_after_a_rewind_do_not_tell_what_was_before_it() {
    let mut seen = Vec::new();
    for seed in 0..PAIRS {
        let pair = Pair::random(seed);
        seen.push(compare_pair(&pair).unwrap_or_else(|error| panic!("seed {seed}: {error}")));
    }
    let sum = |of: fn(&PairSeen) -> usize| seen.iter().map(of).sum::<usize>();
    let (compared, accepted) = (sum(|pair| pair.compared), sum(|pair| pair.accepted));
    let compares = sum(|pair| if pair.secret { pair.compares } else { 0 });
    let rewinds = sum(|pair| if pair.secret { pair.rewinds } else { 0 });
    let rewinds_differ = sum(|pair| usize::from(pair.rewind_differs));
    let secrets = sum(|pair| usize::from(pair.secret));
    let after_secrets = sum(|pair| if pair.secret { pair.accepted } else { 0 });
    let reports = sum(|pair| usize::from(pair.report_differs));
    println!("{PAIRS} pairs, {compared} calls compared, {accepted} of them accepted");
    println!("{compares} compares after a secret, {rewinds} rewinds that put pages back");
    println!("{rewinds_differ} pairs whose first rewinds answer differently");
    println!("{secrets} pairs differ before the rewind, {reports} in a report after it");
    assert!(2 * accepted > compared, "too few accepted calls");
    // The pairs that count are those with something to hide.
    assert!(secrets as u64 > PAIRS * 3 / 4, "only {secrets} pairs differ before the rewind");
    assert!(after_secrets > 10_000, "too few accepted calls after a secret");
    assert!(compares > 1_000, "only {compares} compares after a secret");
    assert!(rewinds > 500, "only {rewinds} rewinds after a secret put pages back");
    assert!(rewinds_differ > 500, "the value of the first rewind hardly ever tells");
    assert!(reports > 20, "the exception for reports is hardly met");
}
