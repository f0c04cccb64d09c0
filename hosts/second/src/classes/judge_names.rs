//! The names of the classes of judged addresses, by group.

pub const JUDGE_ANSWERS: &[&str] = &["leaves", "dropped", "no hit", "1"];

/// The causes of the number 1, in the order of their names. Those of records come last, in the order of
/// [`RECORD_CAUSES`](super::judge_causes::RECORD_CAUSES).
#[derive(Clone, Copy)]
pub enum JudgeCause {
    Empty,
    Ports33,
    MorePorts,
    GoodByLowByte,
    BehindTheLast,
    FurtherOn,
    Low8Bits,
    Low16Bits,
    Low32Bits,
    FirstOfRecords,
}

pub const JUDGE_CAUSES: &[&str] = &[
    "empty list",
    "33 ports",
    "34 ports and more",
    "256 ports and more, good by the low byte of their number",
    "enters right behind the last port",
    "enters further on",
    "enters by a place that is good by its low 8 bits",
    "enters by a place that is good by its low 16 bits",
    "enters by a place that is good by its low 32 bits",
    "Max Group over 63",
    "Num Group over Max Group",
    "Enable over 1",
    "index over 63",
    "index under 12 while enabled",
    "base with bits of 11:0",
];

/// Causes that come together, in the order of their names.
#[derive(Clone, Copy)]
pub enum JudgeTogether {
    LongerAndNoPort,
    LongerAndRecord,
    NoPortAndRecord,
    TwoOfOneRecord,
    TwoRecords,
}

pub const JUDGE_TOGETHER: &[&str] = &[
    "a longer list and no such port",
    "a longer list and a record",
    "no such port and a record",
    "two causes in one record",
    "a cause in each of two records",
];

/// Why an address hits no group, in the order of their names.
#[derive(Clone, Copy)]
pub enum NoHit {
    DisabledInAWindow,
    DisabledBelow,
    DisabledAbove,
    DisabledLowIndex,
    OneUnder,
    FurtherUnder,
    AddressZero,
    BeginsAnew,
    RightBehind,
    WithinMaxGroup,
    Low6Bits,
    Low8Bits,
    Low16Bits,
    Low32Bits,
    LastAddress,
    OtherPortHits,
}

pub const NO_HITS: &[&str] = &[
    "Enable clear, in the window of a group",
    "Enable clear, below the base",
    "Enable clear, above the last group",
    "Enable clear, index under 12",
    "one under the base",
    "further below the base",
    "below the base, address 0",
    "below the base, in a window if addresses began anew at 2^64",
    "right behind the last group",
    "above the last group, within Max Group",
    "above the last group, good by its low 6 bits",
    "above the last group, good by its low 8 bits",
    "above the last group, good by its low 16 bits",
    "above the last group, good by its low 32 bits",
    "above the last group, address 2^64 - 1",
    "a group of another port's record is hit",
];

/// Edges of addresses that hit a group, in the order of their names.
#[derive(Clone, Copy)]
pub enum Edge {
    AtTheBase,
    LastOfLast,
    LastAddress,
    BaseZero,
    HighestBase,
    HighestBaseLastAddress,
    EndAtTop,
    PastTop,
    OwnWindowPastTop,
    SpanOver64Bits,
    LastGroup,
    Index63Group0,
    Index63Group1,
    HighGroup,
    BeforeTop,
    OtherPortMisses,
}

pub const EDGES: &[&str] = &[
    "at the base",
    "last address of the last group",
    "address 2^64 - 1",
    "base 0",
    "base FFFF_FFFF_FFFF_F000h",
    "base FFFF_FFFF_FFFF_F000h, address 2^64 - 1",
    "windows that end at 2^64",
    "windows that go past 2^64",
    "a group whose own window goes past 2^64",
    "windows of 2^64 addresses and more",
    "the last group, not the first",
    "index 63, group 0",
    "index 63, group 1",
    "a group of 32 to 63",
    "an address of the last 4 KiB, base elsewhere",
    "no group of any other port's record is hit",
];

/// What the set of ports is, in the order of their names.
#[derive(Clone, Copy)]
pub enum PortSet {
    NoOther,
    NoneOfSeveral,
    AllOthers,
    All31,
    OnlyFirst,
    OnlyLast,
    TheOtherOfTwo,
    AllButOne,
}

pub const PORT_SETS: &[&str] = &[
    "none, there is no other port",
    "none of several",
    "all others, several",
    "all 31 others",
    "only the first of 32",
    "only the last of 32",
    "the other one of two",
    "all others of 32 but one",
];

/// What else a port has that a packet leaves by, or that it does not leave by, in the order of their names.
#[derive(Clone, Copy)]
pub enum Other {
    Disabled,
    LowNumGroup,
    LowMaxGroup,
    BaseAbove,
    UnlikeIndex,
    Blocking,
    AllAlike,
    DroppedWhileReceived,
    DroppedWithOwnReceive,
    DroppedWithoutOwnReceive,
    NotReceivedNotBlocking,
}

pub const OTHERS: &[&str] = &[
    "left by a port whose Enable is clear",
    "left by a port whose Num Group is under the group",
    "left by a port whose Max Group is under the group",
    "left by a port whose base is above the address",
    "left by a port with another index",
    "left by a port whose Block All bit is set",
    "left by a port of the same Enable, Num Group, index and base",
    "dropped, while another port receives and does not block",
    "dropped, its own Receive bit set",
    "dropped, its own Receive bit clear",
    "not left by an enabled port that does not block",
];
