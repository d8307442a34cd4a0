//! The four cases of a rewind, treated wrongly.

use crate::fault::Fault;
use crate::page::{Backing, PAGES, PAGE_BYTES};
use crate::rewind_case::RewindCase;
use crate::sandbox::Sandbox;
use std::sync::Arc;

/// Against MACHINE 4.29: what a wrong rewind leaves of committed pages, with `before` the sandbox
/// as it was and `sandbox` as the right machine leaves it. The value of the rewind stays right, so
/// that it is the pages that must tell.
pub fn spoil_cases(
    fault: Fault,
    before: &Sandbox,
    image: &[[u8; PAGE_BYTES]],
    sandbox: &mut Sandbox,
) {
    use RewindCase::{Copied, ImagePage, Shared, Zeroed};
    for at in 0..PAGES {
        let was = &before.pages[at];
        let Some(case) = RewindCase::of(was) else { continue };
        let page = &mut sandbox.pages[at];
        match (fault, case, was.backing) {
            (Fault::CaseZeroedBeforeCopied, Copied, Backing::Anonymous) => {
                page.bytes = [0; PAGE_BYTES];
            }
            (Fault::CaseImageBeforeCopied, Copied, Backing::Image(under)) => {
                page.bytes = image[under];
            }
            (Fault::CaseSharedGetsFront, Shared, _) => page.front = was.back,
            (Fault::CaseCopiedFreesFront, Copied, _)
            | (Fault::CaseZeroedFreesFront, Zeroed, _)
            | (Fault::CaseImageFreesFront, ImagePage(_), _) => page.front = false,
            (Fault::CaseZeroedFromImage, Zeroed, _) => {
                page.bytes = image.first().copied().unwrap_or(page.bytes);
            }
            (Fault::CaseCopiedLeft, Copied, _)
            | (Fault::CaseZeroedLeft, Zeroed, _)
            | (Fault::CaseImageLeft, ImagePage(_), _) => page.bytes = was.bytes,
            (Fault::CaseFrontBecomesBack, Copied, _) => {
                page.bytes = was.bytes;
                let copy = sandbox.copy.as_mut().expect("rewound, so there is a snapshot");
                Arc::make_mut(copy)[at].bytes = was.bytes;
            }
            _ => {}
        }
    }
}
