//! The comparison tells every wrong machine and every wrong writer of archives, and no right one.

use compare::WithFrames;
use compare::{check, compare, table, tell, Expected, Known, Lengths, MemoryFault, Mutant};
use model::{ArchiveFault, Fault};
use rolls::Case;
use std::path::Path;

#[test]
fn every_fault_is_told_as_docs_mutants_has_it() {
    let cases: Vec<Case> = (0..300).map(Case::random).collect();
    let seeds: Vec<Known> = cases.iter().map(Known::of).collect();
    let mut all = Vec::new();
    for mutant in Mutant::all() {
        let told = tell(mutant, &seeds).unwrap_or_else(|| panic!("{mutant} passed 300 rolls"));
        let near_runs = match mutant {
            Mutant::Machine(fault) => fault.is_near_runs(),
            Mutant::Memory(fault) => fault.is_near_runs(),
            Mutant::Archive(_) => false,
        };
        let most = if near_runs { 36 } else { 12 };
        assert!(told.lines() <= most, "{mutant}: {} lines", told.lines());
        let by_replies = matches!(mutant, Mutant::Machine(_));
        assert_eq!(told.seed_by_replies.is_some(), by_replies, "{mutant}");
        // It is the mutant that is told: the right machine passes the same roll.
        assert_eq!(compare(&told.shrunk), Ok(()), "{mutant}");
        all.push(told);
    }
    let document = Path::new(env!("CARGO_MANIFEST_DIR")).join("../../docs/MUTANTS.md");
    let document = std::fs::read_to_string(&document).expect("docs/MUTANTS.md");
    let printed = table(&all);
    assert!(document.contains(&printed), "`compare --mutants` now prints:\n{printed}");
}

#[test]
fn no_roll_tells_a_machine_without_fault() {
    for seed in 0..300 {
        let case = Case::random(seed);
        assert_eq!(Mutant::Machine(Fault::None).difference(&case), None, "seed {seed}");
        assert_eq!(Mutant::Memory(MemoryFault::None).difference(&case), None, "seed {seed}");
        assert_eq!(Mutant::Archive(ArchiveFault::None).difference(&case), None, "seed {seed}");
    }
}

/// Faults of memory alone are not told by replies, so it is the memory that is looked at.
#[test]
fn faults_of_memory_answer_as_the_right_machine_does() {
    for seed in 0..20 {
        let case = Case::random(seed);
        let expected = Expected::of(&case, Lengths::of(&case));
        let mut right = WithFrames::play(&case, MemoryFault::None);
        for fault in MemoryFault::ALL {
            let played = WithFrames::play(&case, fault);
            assert!(played.replies == expected.replies, "{fault:?}, seed {seed}");
            // With the right memory under the same replies nothing is told.
            right.replies = played.replies;
            assert_eq!(check(&right, &expected), Ok(()), "{fault:?}, seed {seed}");
        }
    }
}
