//! The names of the classes of layouts, by group.

/// The causes of a bad list, in the order of the places that they are told by.
pub const LIST_CAUSES: &[&str] = &[
    "no structure",
    "961 structures",
    "more structures",
    "more structures, good by the low 10 bits of their number",
    "more structures, good by the low 16 bits of their number",
    "ID 0000h",
    "version over 15",
    "length under 4",
    "length over 3,840",
];

pub const LIST_VALUES: &[&str] = &[
    "version by bit 4",
    "version by bit 5",
    "version by bit 6",
    "version by bit 7",
    "version by bit 8",
    "version by bit 9",
    "version by bit 10",
    "version by bit 11",
    "version by bit 12",
    "version by bit 13",
    "version by bit 14",
    "version by bit 15",
    "version 16",
    "version 65,535",
    "length 0",
    "length 1",
    "length 2",
    "length 3",
    "length 3,841",
    "length 3,842",
    "length 3,843",
    "length 3,844",
    "length 4,096",
    "length 65,535",
    "length by bit 12",
    "length by bit 13",
    "length by bit 14",
    "length by bit 15",
];

pub const LIST_TWO: &[&str] = &[
    "ID and version of one structure",
    "ID and length of one structure",
    "version and length of one structure",
    "the same cause in two structures",
    "two causes in two structures",
    "how many there are, and a structure",
];

pub const LAYOUT_TOGETHER: &[&str] = &[
    "plan_layout: 1 and 2",
    "plan_layout: 1 and 14",
    "plan_layout: 2 and 14",
    "plan_layout: 1, 2 and 14",
    "check_layout: 1 and 18",
    "write_layout: 1 for the structures and 18",
    "write_layout: 1 for the structures and for the space",
    "write_layout: 1 for the space and 18",
    "write_layout: 1 for both, and 18",
];

/// The rooms of a plan, in the order of their names.
#[derive(Clone, Copy)]
pub enum PlanRoom {
    NoPlace,
    OneTooFew,
    TooFew,
    JustEnough,
    OneMore,
    More,
    NoneIn16Bits,
    Over16Bits,
}

pub const PLAN_ROOMS: &[&str] = &[
    "2 with no place",
    "2 with one place too few",
    "2 with more places too few",
    "0 with a place for each",
    "0 with one more",
    "0 with more",
    "0 with 65,536 places",
    "0 with more than 65,536 places",
];

/// What a plan comes from, or why there is none, in the order of their names.
#[derive(Clone, Copy)]
pub enum PlanForm {
    Remainder1,
    LastRemainder1 = 3,
    Longest = 6,
    Shortest,
    MuchFree,
    OverByRounding,
    OverByTheLast,
    OverWithoutTheLast,
    NothingForTheLast,
    FitsIn12Bits,
    FitsIn16Bits,
    FirstTakesAll,
    LastTakesAll,
}

pub const PLAN_FORMS: &[&str] = &[
    "0, a length before the last with remainder 1",
    "0, a length before the last with remainder 2",
    "0, a length before the last with remainder 3",
    "0, the last length with remainder 1",
    "0, the last length with remainder 2",
    "0, the last length with remainder 3",
    "0, one of 3,840 bytes",
    "0, all of 4 bytes",
    "0, much of the space stays free",
    "14, the lengths as they stand would fit",
    "14, by the last one",
    "14, without the last one too",
    "14, nothing is left for the last one",
    "14, the sum would fit in 12 bits",
    "14, the sum would fit in 16 bits",
    "14, the first takes all",
    "14, the last takes all",
];

pub const LAYOUT_ANSWERS: &[&str] = &[
    "check_layout: 0",
    "check_layout: 1",
    "check_layout: 18",
    "write_layout: 0",
    "write_layout: 1",
    "write_layout: 18",
];

/// The one cause of a proposal that is not accepted, with its value, in the order of their names.
#[derive(Clone, Copy)]
pub enum ProposalCause {
    OneTooFew,
    TooFew,
    None,
    OneTooMany,
    TooMany,
    RightIn16Bits,
    FirstOneLow,
    FirstAtZero,
    FirstLow,
    FirstOneHigh,
    Remainder1,
    Falling = 13,
    FallingFurther,
    OverlapBy1,
    PastBy1 = 20,
    PastByMore = 24,
    BeginsPast,
    RightIn12Bits,
    Past16Bits,
}

pub const PROPOSAL_CAUSES: &[&str] = &[
    "one offset too few",
    "more offsets too few",
    "no offset",
    "one offset too many",
    "more offsets too many",
    "65,536 offsets too many",
    "the first at 0FCh",
    "the first at 000h",
    "the first at another offset below",
    "the first at 104h",
    "an offset with remainder 1",
    "an offset with remainder 2",
    "an offset with remainder 3",
    "neighbours the other way round",
    "an order that falls otherwise",
    "an overlap by one byte",
    "an overlap by two bytes",
    "an overlap by three bytes",
    "an overlap by a word",
    "an overlap by more",
    "an end past 1000h by one byte",
    "an end past 1000h by two bytes",
    "an end past 1000h by three bytes",
    "an end past 1000h by a word",
    "an end past 1000h by more",
    "a start at 1000h or above",
    "a start above that is right in its low 12 bits",
    "an end past 2^16",
];

/// What proposals come to, in the order of their names.
#[derive(Clone, Copy)]
pub enum ProposalForm {
    Lowest,
    Highest,
    GapBehindTheFirst,
    GapBeforeTheLast,
    GapOfAWord,
    NoGap,
    ThreeBytesFree,
    EndsAt1000h,
    EndsBefore1000h,
    LastAtFfch,
    OnlyOne,
    EqualNeighbours,
    EqualApart,
    AllEqual,
    OverlapApart,
    NoLayout,
    OffsetFfffh,
    ZeroBehindTheFirst,
}

pub const PROPOSAL_FORMS: &[&str] = &[
    "accepted, the lowest",
    "accepted, all but the first as high as can be",
    "accepted, a gap behind the first",
    "accepted, a gap before the last",
    "accepted, a gap of a word",
    "accepted, neighbours with no byte between them",
    "accepted, neighbours with three bytes between them",
    "accepted, ends at 1000h",
    "accepted, ends up to three bytes before 1000h",
    "accepted, the last at FFCh",
    "accepted, one structure",
    "18, equal neighbours",
    "18, equal offsets that are no neighbours",
    "18, all offsets at 100h",
    "18, an overlap of structures that are no neighbours",
    "18, the structures have no layout",
    "18, an offset of FFFFh",
    "18, an offset of 000h behind the first",
];

/// What was met of words that are written, in the order of their names.
#[derive(Clone, Copy)]
pub enum WrittenForm {
    OverZero,
    OverOnes,
    LastPointerCleared,
    VersionBitsCleared,
    AsItWas,
    OldHeaderStays,
    NotAccepted,
    NotAcceptedOverList,
}

pub const WRITTEN_FORMS: &[&str] = &[
    "a header over a word of 0",
    "a header over a word of ones",
    "the last pointer was another before",
    "a version over one that had other bits",
    "the same headers once more",
    "a header of the list before, in a structure now, that stays",
    "18, nothing changes",
    "18 where the list before is sound",
];

pub const DRAFT_FORMS: &[&str] = &[
    "the plan, accepted and written",
    "another proposal, accepted and written",
    "not accepted",
    "no layout",
];

pub const DRAFT_AGAIN: &[&str] = &[
    "fewer structures than the list before",
    "as many as the list before",
    "more than the list before",
    "over a list of 960",
    "960 structures",
    "one structure",
];
