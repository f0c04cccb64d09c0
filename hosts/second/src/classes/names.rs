//! The names of classes, by group.

/// The causes of the numbers 1 to 6, in their order.
pub const SERVE_CAUSES: &[&str] = &[
    "ordinary space's size",
    "ordinary rules' size",
    "trusted space's size",
    "trusted rules' size",
    "ordinary marks' size",
    "trusted marks' size",
    "ordinary bit marked doubly",
    "trusted bit marked doubly",
    "device over 31",
    "function over 7",
    "A below",
    "A above",
    "A unaligned",
    "B below",
    "B above",
    "B unaligned",
    "edition neither 1 nor 2",
    "reply under 16",
    "packet under 12",
    "type code",
    "bit 7 under edition 2",
    "packet length",
    "TC",
    "Attr",
    "last enables",
    "Length",
];

pub const SERVE_TOGETHER: &[&str] = &[
    "1 and 2", "1 and 3", "1 and 4", "1 and 5", "1 and 6", "2 and 3", "2 and 4", "2 and 5", "2 and 6", "4 and 5",
    "4 and 6", "5 and 6",
];

pub const UNSUPPORTED: &[&str] = &[
    "Type 1 read",
    "Type 1 write",
    "other function, ordinary read",
    "other function, ordinary write",
    "nothing captured, read",
    "nothing captured, write",
    "other bus, read",
    "other bus, write",
    "other device, read",
    "other device, write",
    "other function, trusted read",
    "other function, trusted write",
    "poisoned ordinary write",
    "poisoned trusted write",
];

pub const RULES: &[&str] = &[
    "ordinary, nothing may be written",
    "ordinary, all may be written",
    "ordinary, mixed",
    "ordinary, ends as neither old nor data",
    "trusted, nothing may be written",
    "trusted, all may be written",
    "trusted, mixed",
    "trusted, ends as neither old nor data",
];

/// The classes of the correlation word, in the order of their names.
#[derive(Clone, Copy)]
pub enum Correlation {
    OrdinaryReadAtA,
    OrdinaryWriteAtA,
    TrustedReadAtB,
    TrustedWriteAtB,
    TrustedReadThenShown,
    TrustedWriteThenShown,
    StaleBytesAtA,
    TrustedReadAtOffsetA,
    TrustedWriteAtOffsetA,
    OrdinaryReadAtOffsetB,
    OrdinaryWriteAtOffsetB,
    AIsB,
    AIsLowest,
    AIsHighest,
    BIsLowest,
    BIsHighest,
}

pub const CORRELATION: &[&str] = &[
    "ordinary read at A",
    "ordinary write at A",
    "trusted read at B",
    "trusted write at B",
    "trusted read at B, then ordinary read at A",
    "trusted write at B that an ordinary read at A then shows",
    "stale ordinary bytes at A that a read must not show",
    "trusted read at the offset A, not B",
    "trusted write at the offset A, not B",
    "ordinary read at the offset B, not A",
    "ordinary write at the offset B, not A",
    "ordinary read at A, which is also B",
    "ordinary read at A, which is 104h",
    "ordinary read at A, which is FFCh",
    "ordinary read at A, B being 00Ch",
    "ordinary read at A, B being FFCh",
];

/// The classes of captures and resets, in the order of their names.
#[derive(Clone, Copy)]
pub enum Captures {
    FromNothing,
    AnotherBus,
    AnotherDevice,
    AnotherBusAndDevice,
    TheSame,
    NoByteEnabled,
    ByAWriteAtA,
    TrustedWriteLeavesIt,
    ResetForgets,
    ResetOfNothing,
    OfTheLeast,
    OfTheMost,
    TrustedForTheLeast,
}

pub const CAPTURES: &[&str] = &[
    "from nothing",
    "another bus",
    "another device",
    "another bus and device",
    "the same",
    "with no byte enabled",
    "by a write at A",
    "trusted write that leaves it",
    "reset that forgets",
    "reset with nothing to forget",
    "of bus 0 and device 0",
    "of bus 255 and device 31",
    "trusted request served for bus 0 and device 0",
];

/// The forms of a kept capture, in the order of their names.
#[derive(Clone, Copy)]
pub enum KeptForm {
    NothingWithDeviceOver31Served,
    NothingWithBytesRefused,
    OverOneServed,
    OverOneRefused,
    NothingWithTheRequestsBytes,
    NothingAndRequestForTheLeast,
}

pub const KEPT_FORMS: &[&str] = &[
    "nothing captured with a device over 31, served",
    "nothing captured with other bytes, refused",
    "captured by a number over 1, served",
    "captured by a number over 1, refused",
    "nothing captured with the bytes of a trusted request",
    "nothing captured, trusted request for bus 0 and device 0",
];

pub const BOTTOM_BITS: &[&str] = &[
    "compatible, next pointer with 1",
    "compatible, next pointer with 2",
    "compatible, next pointer with 3",
    "compatible, last pointer of 1 to 3",
    "compatible, start pointer with some",
    "compatible, start pointer of 1 to 3",
    "extended, next pointer with 1",
    "extended, next pointer with 2",
    "extended, next pointer with 3",
    "extended, last pointer of 1 to 3",
    "trusted, next pointer with 1",
    "trusted, next pointer with 2",
    "trusted, next pointer with 3",
    "trusted, last pointer of 1 to 3",
    "trusted, start pointer with some",
    "trusted, start pointer of 1 to 3",
    "compatible, pointer that closes a loop",
    "extended, pointer that closes a loop",
    "trusted, pointer that closes a loop",
    "compatible, next pointer below the floor",
    "extended, next pointer below the floor",
    "trusted, next pointer below the floor",
    "compatible, start pointer below the floor",
    "trusted, start pointer below the floor",
];

pub const DECLARED_EMPTY: &[&str] = &[
    "compatible, its pointers hold a legal chain",
    "compatible, its pointers go round a loop",
    "compatible, its start leads below the floor",
    "compatible, a pointer of its headers leads below the floor",
    "extended, the zero word at 100h, and something at 104h",
    "extended, the zero word at 100h and at 104h",
];

pub const FIRST_NULLS: &[&str] = &[
    "pointer alone, a chain",
    "pointer alone, a chain of the maximum",
    "pointer alone, to itself",
    "pointer alone, a loop through 100h",
    "pointer alone, a loop behind it",
    "pointer alone, below the floor",
    "pointer alone, below the floor later on",
    "version and pointer, a chain",
    "version and pointer, a chain of the maximum",
    "version and pointer, to itself",
    "version and pointer, a loop through 100h",
    "version and pointer, a loop behind it",
    "version and pointer, below the floor",
    "version and pointer, below the floor later on",
];

pub const NULL_FORMS: &[&str] = &[
    "compatible, a header of 0 at the start",
    "compatible, a header of 0 further on",
    "trusted, a header of 0 at the start",
    "trusted, a header of 0 further on",
    "extended, a header of 0 further on",
    "extended, IDs of 0 all along a chain",
    "extended, an ID of 0 before a loop",
    "extended, an ID of 0 in a loop",
    "extended, an ID of 0 where a loop closes",
    "extended, an ID of 0 that points below the floor",
];

pub const DVSEC_CAUSES: &[&str] = &[
    "space's size",
    "unaligned",
    "below 100h",
    "above FFCh",
    "near 2^32",
    "near 2^64",
    "ID",
    "version",
    "FF8h",
    "FFCh",
    "length below 0Ah",
    "ends past 1000h",
];

pub const DVSEC_BODIES: &[&str] = &[
    "fields, body of 0",
    "fields, body of 1",
    "fields, body of 6",
    "fields, body up to 1000h",
    "fields, longest body",
    "fields at FF4h",
    "body of 0",
    "body of 1",
    "body of 6",
    "body up to 1000h",
    "longest body",
    "body at FF4h",
];

pub const DUAL_CAUSES: &[&str] = &[
    "space's size",
    "unaligned",
    "below 040h",
    "above 0FCh",
    "near 2^32",
    "near 2^64",
    "byte 0",
    "0F8h",
    "0FCh",
    "capability length",
    "DVSEC Length",
    "revision",
    "8086h with 0002h",
    "1EC0h with 0009h",
    "other vendor",
    "other ID",
    "vector without a bit",
    "vector with more bits",
];

pub const DUAL_ORDER: &[&str] = &[
    "byte 0 before length",
    "length before vendor or revision",
    "length before vector",
    "vendor or revision before vector",
];

pub const DUAL_IGNORED: &[&str] = &["bits 31:29 of the third word", "byte 3", "next pointer"];

pub const NOISE: &[&str] = &[
    "serve",
    "reset",
    "compatible",
    "extended",
    "trusted",
    "dvsec",
    "dvsec_body",
    "dual_bdf",
    "route",
    "write_request",
    "read_completion",
    "multicast",
    "judge",
    "plan_layout",
    "check_layout",
    "write_layout",
    "serve_pair",
    "reset_pair",
];
