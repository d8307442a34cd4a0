//! Wrong writers of archives: the right one with one fault. No call's answer shows them.

/// What a wrong writer does. The sentences against which it slips are request A9's.
#[derive(Clone, Copy, PartialEq, Eq, Debug, Default)]
pub enum ArchiveFault {
    #[default]
    None,

    // Which refusal is answered.
    /// A closed sandbox is refused 8, as having no snapshot.
    ClosedLacksSnapshot,
    /// Sandbox 4 is taken for sandbox 0.
    SandboxModuloFour,
    /// Refusal 8 is left out: without a snapshot the present pages are written.
    ArchivesWithoutSnapshot,
    /// A snapshot of no pages is refused 8.
    RefusesEmptySnapshot,
    /// Output shorter than the shortest roll is refused 15 before the sandbox is looked at.
    AnswersFifteenFirst,

    // Which pages are written.
    /// The present pages in place of the snapshot's.
    ArchivesPresent,
    /// The snapshot's mappings and rights, with the present bytes.
    PresentBytes,
    /// The snapshot's mappings and bytes, with the present rights.
    PresentRights,

    // "open with its share"; "one map a snapshot area in page order, at named pages with rights 3".
    /// The share is what the snapshot needs, and not the sandbox's.
    OpensWithCharge,
    /// The share is the whole pool.
    OpensWithPool,
    /// Areas are mapped with their own rights.
    MapsWithOwnRights,
    /// Areas are mapped at 64.
    MapsAtLowestGap,
    /// Each page is mapped by itself.
    MapForEachPage,
    /// An image area is split where its image pages run on.
    ImagePagesMappedApart,
    /// Neighbours that differ in rights alone get one map, since they are mapped alike.
    RightsDivideNoMap,
    /// Every image area is mapped from image page 0 on.
    MapsImageFromPage0,
    /// Image areas are mapped as anonymous ones, and their bytes written.
    WritesImageOut,
    /// Maps stand in falling page order.
    MapsHighestFirst,

    // "a write for each byte that differs from its page's zero or image byte, in address order".
    /// Bytes of image pages are compared with zero.
    ZeroUnderImagePage,
    /// All bytes of a page that was written are written, also those equal to its image's.
    WritesEqualBytes,
    /// The last byte of each page is left out.
    LeavesOutLastByte,
    /// Page 63 is left out.
    LeavesOutLastPage,
    /// A zero written over an image byte is left out.
    LeavesOutZeros,
    /// Pages with rights 1 are left out, as nobody could have written them.
    LeavesOutReadOnly,
    /// The writes of an area stand behind its map, and not behind all maps.
    WritesBehindEachMap,
    /// Writes stand in falling address order.
    WritesHighestFirst,

    // "a protect for each area with rights 1, in page order; snapshot".
    /// Areas with rights 3 get a protect too.
    ProtectsEveryArea,
    /// Each page with rights 1 gets a protect of its own.
    ProtectForEachPage,
    /// Neighbouring areas with rights 1 get one protect.
    ProtectsJoined,
    /// There are no protects.
    LeavesOutProtects,
    /// Protects stand before the writes.
    ProtectsBeforeWrites,
    /// Protects stand in falling page order.
    ProtectsHighestFirst,
    /// The snapshot line is left out.
    LeavesOutSnapshot,

    // "every line naming the sandbox by its own number"; "the only form the reader accepts".
    /// Every line names sandbox 0.
    NamesSandbox0,
    /// Fields are filled with zeros in place of blanks.
    LeadingZeros,

    // "The answer is the number of lines; output memory past them is untouched"; "any refusal
    // leaves all output memory untouched"; "15, output memory shorter than the roll".
    /// The value is one less than the lines.
    CountOneShort,
    /// The value is the number of bytes.
    CountsBytes,
    /// Output past the lines is cleared.
    ClearsPastLines,
    /// Lines are put as long as they fit, and then it is refused 15.
    TouchedBeforeFifteen,
    /// A refusal 15 clears the output.
    FifteenClearsOutput,
    /// Output that just suffices is refused 15.
    RefusesExactFit,
    /// The last line feed needs no room.
    TakesOneByteShort,
}

impl ArchiveFault {
    /// Every fault, without `None`.
    pub const ALL: [ArchiveFault; 42] = [
        ArchiveFault::ClosedLacksSnapshot,
        ArchiveFault::SandboxModuloFour,
        ArchiveFault::ArchivesWithoutSnapshot,
        ArchiveFault::RefusesEmptySnapshot,
        ArchiveFault::AnswersFifteenFirst,
        ArchiveFault::ArchivesPresent,
        ArchiveFault::PresentBytes,
        ArchiveFault::PresentRights,
        ArchiveFault::OpensWithCharge,
        ArchiveFault::OpensWithPool,
        ArchiveFault::MapsWithOwnRights,
        ArchiveFault::MapsAtLowestGap,
        ArchiveFault::MapForEachPage,
        ArchiveFault::ImagePagesMappedApart,
        ArchiveFault::RightsDivideNoMap,
        ArchiveFault::MapsImageFromPage0,
        ArchiveFault::WritesImageOut,
        ArchiveFault::MapsHighestFirst,
        ArchiveFault::ZeroUnderImagePage,
        ArchiveFault::WritesEqualBytes,
        ArchiveFault::LeavesOutLastByte,
        ArchiveFault::LeavesOutLastPage,
        ArchiveFault::LeavesOutZeros,
        ArchiveFault::LeavesOutReadOnly,
        ArchiveFault::WritesBehindEachMap,
        ArchiveFault::WritesHighestFirst,
        ArchiveFault::ProtectsEveryArea,
        ArchiveFault::ProtectForEachPage,
        ArchiveFault::ProtectsJoined,
        ArchiveFault::LeavesOutProtects,
        ArchiveFault::ProtectsBeforeWrites,
        ArchiveFault::ProtectsHighestFirst,
        ArchiveFault::LeavesOutSnapshot,
        ArchiveFault::NamesSandbox0,
        ArchiveFault::LeadingZeros,
        ArchiveFault::CountOneShort,
        ArchiveFault::CountsBytes,
        ArchiveFault::ClearsPastLines,
        ArchiveFault::TouchedBeforeFifteen,
        ArchiveFault::FifteenClearsOutput,
        ArchiveFault::RefusesExactFit,
        ArchiveFault::TakesOneByteShort,
    ];
}
