//! Call 10 of the proved machine, beside the random rolls: "A committed page with unchanged
//! rights and no front is passed over: no byte of its back frame can alter the answer. The
//! answer equals that of comparing all 64 pages."

use compare::{Kept, Lengths};
use gazhuppin::Told;
use model::{parse_line, Answering, Call, Machine, Sandbox, LINE_BYTES, PAGES, PAGE_BYTES};
use rolls::{Case, Prng};

/// The backs, as places in the table, of the pages that are passed over.
fn passed_over(sandbox: &Sandbox, number: usize) -> Vec<usize> {
    let Some(copy) = &sandbox.copy else { return Vec::new() };
    let unchanged = |&at: &usize| {
        let (page, kept) = (&sandbox.pages[at], &copy[at]);
        page.committed && page.back && !page.front && page.rights == kept.rights
    };
    (0..PAGES).filter(unchanged).map(|at| 2 * PAGES * number + PAGES + at).collect()
}

/// Other bytes in the backs of all pages that are passed over, while the rest stays.
fn with_other_backs(kept: &Kept, backs: &[usize], prng: &mut Prng) -> Kept {
    let mut other = kept.clone();
    for &back in backs {
        let frame = usize::from(kept.table[back]) - 1;
        for byte in &mut other.pool[frame * PAGE_BYTES..][..PAGE_BYTES] {
            *byte ^= prng.byte();
        }
    }
    other
}

#[test]
fn no_byte_of_the_back_of_a_page_passed_over_alters_the_answer() {
    let (mut clean, mut differing) = (0, 0);
    for seed in 0..300 {
        let case = Case::of_lines(seed, 120);
        let mut machine = Machine::fresh(&case.image, case.frames);
        if !machine.lengths_are_right() {
            continue;
        }
        let mut prng = Prng::new(seed);
        let mut kept = Kept::filled(Lengths::of(&case));
        kept.start(&case.image);
        for call in case.roll.chunks(LINE_BYTES).filter_map(parse_line) {
            kept.call(&case.image, &call);
            machine.answer(&call);
            let number = usize::from(call.sandbox) % 4;
            let backs = passed_over(machine.sandbox(number), number);
            if backs.is_empty() {
                continue;
            }
            let compare = Call { code: 10, sandbox: number as u16, parameters: [0; 5] };
            let (_, value) = machine.answer(&compare);
            let mut other = with_other_backs(&kept, &backs, &mut prng);
            let before = other.clone();
            for kept in [&mut kept, &mut other] {
                assert_eq!(kept.call(&case.image, &compare), Told { number: 0, value });
            }
            assert!(other == before, "compare changed something");
            *(if value == 64 { &mut clean } else { &mut differing }) += 1;
        }
    }
    println!("{clean} clean and {differing} other sandboxes");
    assert!(clean > 500 && differing > 500, "only {clean} clean and {differing} others");
}
