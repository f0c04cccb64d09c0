//! The names of the router's classes, by group.

pub const ROUTE_ANSWERS: &[&str] = &["leaves", "UR", "1", "2", "3", "4", "5", "6"];

/// The causes of the numbers 1 to 6 in the order in which they are looked for, and of their names.
#[derive(Clone, Copy)]
pub enum RouteCause {
    Ports33,
    MorePorts,
    OverByOne,
    OverByMore,
    Meet,
    Room,
    Short,
    TypeCode,
    PacketLength,
    TrafficClass,
    Attributes,
    LastEnables,
    Length,
    Type0,
    NoSupport,
}

pub const ROUTE_CAUSES: &[&str] = &[
    "33 ports",
    "34 ports and more",
    "secondary over its subordinate by 1",
    "secondary over its subordinate by more",
    "two ranges meet",
    "buffer under 20",
    "packet under 12",
    "type code",
    "packet length",
    "TC",
    "Attr",
    "last enables",
    "Length",
    "Type 0",
    "port without TCS routing",
];

/// Causes of two answers. "Type 0" and "TCS" are the router's own causes of 4; "UR" is a bus of no port.
pub const ROUTE_TOGETHER: &[&str] = &[
    "1 and 2",
    "1 and 3",
    "1 and type code",
    "1 and 5",
    "1 and 6",
    "1 and Type 0",
    "1 and UR",
    "1 and TCS",
    "2 and 3",
    "2 and type code",
    "2 and 5",
    "2 and 6",
    "2 and Type 0",
    "2 and UR",
    "2 and TCS",
    "type code and 6",
    "5 and 6",
    "5 and Type 0",
    "5 and UR",
    "5 and TCS",
    "6 and Type 0",
    "6 and UR",
    "6 and TCS",
];

/// How the earlier of two ports' ranges lies to the later one's.
pub const MEETINGS: &[&str] = &[
    "begins before, ends at the other's secondary",
    "begins before, ends inside",
    "begins before, ends with it",
    "begins before, ends behind it",
    "begins with it, ends inside",
    "the same range",
    "begins with it, ends behind it",
    "begins inside, ends inside",
    "begins inside, ends with it",
    "begins inside, ends behind it",
    "begins at the other's subordinate, ends behind it",
];

pub const MET_BUSES: &[&str] = &[
    "Type 1, bus in both",
    "Type 1, bus in one of them",
    "Type 1, bus in a third",
    "trusted, bus in both",
    "trusted, bus in one of them",
    "trusted, bus in a third",
];

/// Packets that find no room, by what they would get with more of it.
pub const ROUTE_ROOMS: &[&str] = &[
    "3, longer than the buffer",
    "3, not longer",
    "type code, longer than the buffer",
    "type code, not longer",
    "5, longer than the buffer",
    "5, not longer",
    "6, longer than the buffer",
    "6, not longer",
    "Type 0, longer than the buffer",
    "Type 0, not longer",
    "UR, longer than the buffer",
    "UR, not longer",
    "TCS, longer than the buffer",
    "TCS, not longer",
    "leaves as Type 0, longer than the buffer",
    "leaves as Type 0, not longer",
    "leaves as Type 1, longer than the buffer",
    "leaves as Type 1, not longer",
    "leaves trusted, longer than the buffer",
    "leaves trusted, not longer",
];

/// The shapes of lists, in the order of their names.
#[derive(Clone, Copy)]
pub enum ListShape {
    OneForAllAsType0,
    OneForAllUnchanged,
    ManyForAll,
    ManySingles,
    TouchedBelow,
    TouchedAbove,
    Ascending,
    Descending,
    NeitherOrder,
    OnlySupporter,
    OnlyWithout,
    GoodByLowByte,
}

pub const LIST_SHAPES: &[&str] = &[
    "leaves as Type 0 by the port of all buses",
    "leaves unchanged by the port of all buses",
    "leaves by one of 32 ports with all buses",
    "leaves by one of 32 ports of one bus each",
    "leaves at a secondary just above another range",
    "leaves at a subordinate just below another range",
    "leaves, three ports or more in ascending order",
    "leaves, three ports or more in descending order",
    "leaves, three ports or more in neither order",
    "trusted leaves by the only port with TCS routing of several",
    "trusted at the only port without TCS routing of several",
    "256 ports or more, good by the low byte of their number",
];
