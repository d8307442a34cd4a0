//! Wrong machines: the plain machine with one fault. A tester that cannot tell one
//! of these from the right machine does not look closely enough.

#[derive(Clone, Copy, PartialEq, Eq, Debug, Default)]
pub enum Fault {
    #[default]
    None,

    // MACHINE 15.1: "Plausible and wrong".
    /// "Handing out a rewound area's old address": a map at 64 prefers the place of
    /// an area that the last rewind took away.
    HandsOutRewoundPlace,
    /// The same the other way about: a map at 64 searches past that area first.
    SearchesPastRewoundPlace,
    /// "Dropping the snapshot's frame when a committed page is unmapped and its
    /// number mapped anew."
    DropsSnapshotFrame,
    /// "Taking zero as the old content of an image page", when its first write fills
    /// a frame.
    ZeroUnderWrittenImagePage,
    /// The same when a rewind undoes the writes to an image page.
    ZeroUnderRewoundImagePage,
    /// "Restoring bytes but not rights."
    RewindKeepsRights,

    // MACHINE 15.2: "What a contract must hold", item 3.
    /// "a rewind that leaves the pages dirty".
    RewindLeavesPagesDirty,
    /// "one that restores after the first request and merely reports success later".
    RewindsOnlyOnce,
    /// "an invented held count": the charge.
    InventsHeldCount,
    /// "refusal 13 while the share still suffices": when it would just be filled.
    RefusesThirteenEarly,
    /// "a machine refusing all".
    RefusesAll,
    /// "one with a constant reply".
    ConstantReply,

    // Slips near the rules of MACHINE 2 to 6.
    /// A rewind keeps fronts of snapshot pages that were mapped anew.
    RewindKeepsAllFronts,
    /// A rewind frees the fronts that it should keep.
    RewindFreesAllFronts,
    /// A rewind leaves areas mapped since, where they meet no snapshot page.
    RewindLeavesNewAreas,
    /// Unmapping a committed page frees its back as well.
    UnmapFreesBack,
    /// The charge counts only those snapshot pages that are mapped.
    ChargeForgetsUnmapped,
    /// Refusal 14 is tested in map only, not in unmap and protect.
    AreasTestedInMapOnly,
    /// Each image page is counted as an area of its own.
    ImagePagesNeverRunOn,
    /// A map at 64 takes the tightest gap that fits, not the lowest.
    TightestGap,
    /// A page mapped anew shows what its number held before an unmap or a rewind.
    StaleBytesInNewPage,
    /// A read takes a frame for its page.
    ReadTakesFrame,
    /// A write refused for want of the right stores its byte all the same.
    RefusedWriteStores,
    /// A rewind rewinds every sandbox that has a snapshot.
    RewindsEverySandbox,
    /// Of refusals 13 and 14, where both apply, 14 is answered.
    AnswersLaterRefusal,
    /// A snapshot that would just fill the share is refused 13.
    RefusesFittingSnapshot,
    /// An open that would just share out the pool is refused 13.
    RefusesLastOpen,
    /// A second snapshot takes the place of the first.
    SnapshotsAgain,

    // Slips near MACHINE 4.20 and 4.21, call 10.
    /// Page 0 is not compared.
    CompareStartsAtPage1,
    /// Page 63 is not compared.
    CompareStopsAtPage62,
    /// Where nothing differs the value is 0, not 64.
    CompareAnswersZeroWhenClean,
    /// The value is how many pages differ, not which is the lowest.
    CompareCountsPages,
    /// Refusal 8 is left out: without a snapshot every mapped page differs.
    CompareWithoutSnapshot,
    /// A page with another backing differs, though its bytes are the snapshot's.
    CompareLooksAtBacking,
    /// A page mapped anew differs, though its bytes are the snapshot's.
    CompareLooksAtMark,
    /// A page with a front differs, though it was written back.
    CompareTakesFrontForDifference,
    /// The last byte of a page is not compared.
    CompareForgetsLastByte,
    /// Changed rights are passed over.
    CompareForgetsRights,
    /// Every page without a front is passed over, and not only the committed ones.
    ComparePassesOverFrontless,
    /// Only the snapshot's pages are compared, and not those mapped since.
    CompareForgetsNewPages,
    /// Only mapped pages are compared, and not those unmapped since.
    CompareForgetsUnmapped,
    /// What an unmapped page held before is compared as well.
    CompareLooksAtUnmappedBytes,
    /// Compare frees the fronts of pages that agree.
    CompareFreesAgreeingFronts,

    // Slips near MACHINE 4.8 and row 9: unmap passes over unmapped pages, and no other call does.
    /// An unmap with mapped and unmapped pages is refused 9; one with none mapped is accepted.
    UnmapRefusedOverGap,
    /// An unmap with none mapped is refused 9; one with mapped and unmapped pages is accepted.
    UnmapOfNothingRefused,
    /// Gaps are passed over behind a mapped page: to begin in one, with a mapped page behind it,
    /// is refused 9.
    UnmapMustBeginMapped,
    /// An unmap is refused 9 where it meets a page that was unmapped since the snapshot.
    UnmapTwiceRefused,
    /// An unmap stops at the first unmapped page.
    UnmapStopsAtGap,
    /// Of the runs of mapped pages only the last is unmapped.
    UnmapTakesLastRun,
    /// All mapped pages are unmapped, but fronts are freed only as far as the first gap.
    UnmapLeavesFrontsBehindGap,
    /// The back of a page that is passed over is freed.
    UnmapFreesBackInGap,
    /// The value is how many pages were unmapped.
    UnmapCountsPages,
    /// Refusal 14 counts a range with mapped and unmapped pages as a hole: one area more.
    UnmapOverGapNeedsArea,
    /// Protect passes over unmapped pages too, where some are mapped.
    ProtectPassesOverGaps,
    /// Protect is accepted, and does nothing, where none is mapped.
    ProtectOfNothingAccepted,
    /// A read of an unmapped page is accepted and gives 0.
    ReadPassesOverGap,
    /// A write to an unmapped page is accepted and does nothing.
    WritePassesOverGap,

    // Slips near the request that keeps the frames of a finished request.
    /// Nine runs are kept.
    NinthRunKept,
    /// Where eight are kept, a new run is freed, however long it is.
    RunsNeverCompete,
    /// Where eight are kept, a new run takes the place of the oldest, however long it is.
    OldestRunGoes,
    /// Of more than eight runs the shortest are kept.
    ShortestRunsKept,
    /// A rewind keeps the fronts of uncommitted image areas too.
    ImageAreaKept,
    /// A rewind keeps the fronts of committed anonymous pages in a run, and not as fronts.
    CommittedFrontKept,
    /// A rewind makes a run of each page, and not of each area.
    RunForEachPage,
    /// A rewind makes one run of all areas together.
    RunForEachRewind,
    /// Neighbours with other rights go into one run.
    RightsDivideNoRun,
    /// A run is as long as its area has pages, written or not.
    RunAsLongAsItsArea,
    /// The runs of a rewind take the place of all that were kept.
    RewindDropsOldRuns,
    /// Nothing is kept: all fronts of uncommitted pages are freed, as before the request.
    RewindKeepsNothing,
    /// A page that gets a kept frame shows what a finished request wrote.
    KeptFramesNotCleared,
    /// An unmap keeps the fronts of uncommitted anonymous pages as a run.
    UnmapKeepsFronts,
    /// An anonymous map at a named page takes a run.
    NamedMapTakesRun,
    /// An image map at 64 takes a run.
    ImageMapTakesRun,
    /// A map with rights 1 takes none.
    ReadOnlyMapTakesNone,
    /// No map takes a run.
    MapTakesNone,
    /// A map takes the longest run, though a shorter one suffices.
    MapTakesLongest,
    /// A map takes the oldest run that suffices.
    MapTakesOldest,
    /// A map that no run suffices for takes none.
    MapNeedsEnough,
    /// A map that no run suffices for takes the next longest too, until all its pages have fronts.
    MapTakesSeveral,
    /// What a map leaves of a run is freed.
    SurplusFreed,
    /// The frames that a map takes are freed, and its pages get no fronts.
    TakenRunFreed,
    /// A map at 64 refused for want of a gap, of frames or of areas frees the run all the same.
    RefusedMapTakesRun,
    /// Runs are kept in common: where its own sandbox keeps none, a map takes a run of another.
    MapTakesOthersRun,
    /// Call 9 counts fronts and backs alone.
    ReportForgetsKept,
    /// Kept frames count in the charge: refusal 13 while the share still suffices.
    KeptCharged,
    /// A write gives up no frame, and the share is exceeded.
    WriteGivesUpNone,
    /// A frame is given up only where the share is exceeded already.
    GivesUpLate,
    /// A frame is given up where the share would just be filled.
    GivesUpEarly,
    /// A frame of the shortest run is given up.
    GivesUpFromShortest,
    /// The whole longest run is given up.
    GivesUpWholeRun,
    /// With a full share a write gives up a frame though its page has a front.
    GivesUpForFront,

    // Slips near MACHINE 4.13 and 9.14: the pages that a rewind puts back, counted.
    /// The value is 0, as before the request.
    PutBackAnswersZero,
    /// The value says whether a page differed, and not how many.
    PutBackAnswersOneAtMost,
    /// Bytes that differ are counted, and not pages.
    PutBackCountsBytes,
    /// Every front that is kept is counted, though its bytes are the snapshot's.
    PutBackCountsFronts,
    /// A page written since the snapshot or the rewind before is counted, though it was written
    /// back.
    PutBackCountsWritten,
    /// A snapshot page that was unmapped and mapped anew with other bytes is counted too.
    PutBackCountsMappedAnew,
    /// Pages mapped since, where the snapshot has none, are counted too.
    PutBackCountsNewPages,
    /// Snapshot pages that are not mapped any more are counted too.
    PutBackCountsUnmapped,
    /// A committed page with other rights is counted, though its bytes are the snapshot's.
    PutBackCountsRights,
    /// A page that was written and then given rights 1 is not counted.
    PutBackForgetsProtected,
    /// The value is that of the rewind before, and 0 at the first.
    PutBackToldOneBehind,
    /// The value is the sum over all rewinds of the sandbox.
    PutBackAddsUp,
    /// The pages of all sandboxes that differ from their snapshots are counted.
    PutBackCountsEverySandbox,
    /// A rewind that is refused 6 has the value of one that is accepted.
    PutBackToldThoughRefused,
    /// Page 0 is not counted.
    PutBackForgetsPage0,
    /// Page 63 is not counted.
    PutBackForgetsPage63,
    /// The bytes of a page are compared up to the first that is the same: the first alone
    /// decides.
    PutBackLooksAtFirstByte,
    /// Each byte's outcome takes the place of the one before: the last alone decides.
    PutBackLooksAtLastByte,
    /// The first byte of a page is not compared.
    PutBackForgetsFirstByte,
    /// The last byte of a page is not compared.
    PutBackForgetsLastByte,
    /// A page is compared with its zero or image bytes, though it has a back.
    PutBackForgetsBack,
    /// An image page without a back is compared with zeros.
    PutBackTakesImageForZero,
    /// Anonymous pages without a back are cleared and not compared.
    PutBackForgetsZeroed,
    /// Image pages without a back are not compared.
    PutBackForgetsImage,
    /// Comparing and copying a page back ends at the first byte that differs: those behind it stay.
    PutBackStopsAtDifference,
    /// Pages are compared and copied back as far as the first that differs: those behind it stay.
    PutBackStopsAtPage,

    // Slips near MACHINE 4.29: the four cases of a rewind. The image page cleared to zero is
    // `ZeroUnderRewoundImagePage`, above.
    /// An anonymous page with front and back is cleared to zero: the third case is looked for
    /// before the second.
    CaseZeroedBeforeCopied,
    /// An image page with front and back gets the image's bytes, and not its back's: the fourth
    /// case is looked for before the second.
    CaseImageBeforeCopied,
    /// A page with a back and no front gets a front, with the back's bytes.
    CaseSharedGetsFront,
    /// A page with front and back loses its front and reads its back: the paper's "intuitive
    /// approach".
    CaseCopiedFreesFront,
    /// An anonymous page with a front alone loses it, and reads zeros.
    CaseZeroedFreesFront,
    /// An image page with a front alone loses it, and reads its image page.
    CaseImageFreesFront,
    /// An anonymous page with a front alone gets the bytes of image page 0, where there is one.
    CaseZeroedFromImage,
    /// A page with front and back keeps the bytes that the request wrote.
    CaseCopiedLeft,
    /// An anonymous page with a front alone keeps them.
    CaseZeroedLeft,
    /// An image page with a front alone keeps them.
    CaseImageLeft,
    /// A page with front and back is copied the wrong way round: its back gets the front's bytes,
    /// and the snapshot has changed for good.
    CaseFrontBecomesBack,
}

impl Fault {
    /// Every fault, without `None`.
    pub const ALL: [Fault; 128] = [
        Fault::HandsOutRewoundPlace,
        Fault::SearchesPastRewoundPlace,
        Fault::DropsSnapshotFrame,
        Fault::ZeroUnderWrittenImagePage,
        Fault::ZeroUnderRewoundImagePage,
        Fault::RewindKeepsRights,
        Fault::RewindLeavesPagesDirty,
        Fault::RewindsOnlyOnce,
        Fault::InventsHeldCount,
        Fault::RefusesThirteenEarly,
        Fault::RefusesAll,
        Fault::ConstantReply,
        Fault::RewindKeepsAllFronts,
        Fault::RewindFreesAllFronts,
        Fault::RewindLeavesNewAreas,
        Fault::UnmapFreesBack,
        Fault::ChargeForgetsUnmapped,
        Fault::AreasTestedInMapOnly,
        Fault::ImagePagesNeverRunOn,
        Fault::TightestGap,
        Fault::StaleBytesInNewPage,
        Fault::ReadTakesFrame,
        Fault::RefusedWriteStores,
        Fault::RewindsEverySandbox,
        Fault::AnswersLaterRefusal,
        Fault::RefusesFittingSnapshot,
        Fault::RefusesLastOpen,
        Fault::SnapshotsAgain,
        Fault::CompareStartsAtPage1,
        Fault::CompareStopsAtPage62,
        Fault::CompareAnswersZeroWhenClean,
        Fault::CompareCountsPages,
        Fault::CompareWithoutSnapshot,
        Fault::CompareLooksAtBacking,
        Fault::CompareLooksAtMark,
        Fault::CompareTakesFrontForDifference,
        Fault::CompareForgetsLastByte,
        Fault::CompareForgetsRights,
        Fault::ComparePassesOverFrontless,
        Fault::CompareForgetsNewPages,
        Fault::CompareForgetsUnmapped,
        Fault::CompareLooksAtUnmappedBytes,
        Fault::CompareFreesAgreeingFronts,
        Fault::UnmapRefusedOverGap,
        Fault::UnmapOfNothingRefused,
        Fault::UnmapMustBeginMapped,
        Fault::UnmapTwiceRefused,
        Fault::UnmapStopsAtGap,
        Fault::UnmapTakesLastRun,
        Fault::UnmapLeavesFrontsBehindGap,
        Fault::UnmapFreesBackInGap,
        Fault::UnmapCountsPages,
        Fault::UnmapOverGapNeedsArea,
        Fault::ProtectPassesOverGaps,
        Fault::ProtectOfNothingAccepted,
        Fault::ReadPassesOverGap,
        Fault::WritePassesOverGap,
        Fault::NinthRunKept,
        Fault::RunsNeverCompete,
        Fault::OldestRunGoes,
        Fault::ShortestRunsKept,
        Fault::ImageAreaKept,
        Fault::CommittedFrontKept,
        Fault::RunForEachPage,
        Fault::RunForEachRewind,
        Fault::RightsDivideNoRun,
        Fault::RunAsLongAsItsArea,
        Fault::RewindDropsOldRuns,
        Fault::RewindKeepsNothing,
        Fault::KeptFramesNotCleared,
        Fault::UnmapKeepsFronts,
        Fault::NamedMapTakesRun,
        Fault::ImageMapTakesRun,
        Fault::ReadOnlyMapTakesNone,
        Fault::MapTakesNone,
        Fault::MapTakesLongest,
        Fault::MapTakesOldest,
        Fault::MapNeedsEnough,
        Fault::MapTakesSeveral,
        Fault::SurplusFreed,
        Fault::TakenRunFreed,
        Fault::RefusedMapTakesRun,
        Fault::MapTakesOthersRun,
        Fault::ReportForgetsKept,
        Fault::KeptCharged,
        Fault::WriteGivesUpNone,
        Fault::GivesUpLate,
        Fault::GivesUpEarly,
        Fault::GivesUpFromShortest,
        Fault::GivesUpWholeRun,
        Fault::GivesUpForFront,
        Fault::PutBackAnswersZero,
        Fault::PutBackAnswersOneAtMost,
        Fault::PutBackCountsBytes,
        Fault::PutBackCountsFronts,
        Fault::PutBackCountsWritten,
        Fault::PutBackCountsMappedAnew,
        Fault::PutBackCountsNewPages,
        Fault::PutBackCountsUnmapped,
        Fault::PutBackCountsRights,
        Fault::PutBackForgetsProtected,
        Fault::PutBackToldOneBehind,
        Fault::PutBackAddsUp,
        Fault::PutBackCountsEverySandbox,
        Fault::PutBackToldThoughRefused,
        Fault::PutBackForgetsPage0,
        Fault::PutBackForgetsPage63,
        Fault::PutBackLooksAtFirstByte,
        Fault::PutBackLooksAtLastByte,
        Fault::PutBackForgetsFirstByte,
        Fault::PutBackForgetsLastByte,
        Fault::PutBackForgetsBack,
        Fault::PutBackTakesImageForZero,
        Fault::PutBackForgetsZeroed,
        Fault::PutBackForgetsImage,
        Fault::PutBackStopsAtDifference,
        Fault::PutBackStopsAtPage,
        Fault::CaseZeroedBeforeCopied,
        Fault::CaseImageBeforeCopied,
        Fault::CaseSharedGetsFront,
        Fault::CaseCopiedFreesFront,
        Fault::CaseZeroedFreesFront,
        Fault::CaseImageFreesFront,
        Fault::CaseZeroedFromImage,
        Fault::CaseCopiedLeft,
        Fault::CaseZeroedLeft,
        Fault::CaseImageLeft,
        Fault::CaseFrontBecomesBack,
    ];

    /// Whether it is a slip near kept runs. A roll that tells one maps and writes several areas
    /// and rewinds them, so that it has more lines than others.
    pub fn is_near_runs(self) -> bool {
        (Fault::NinthRunKept as usize..=Fault::GivesUpForFront as usize).contains(&(self as usize))
    }
}
