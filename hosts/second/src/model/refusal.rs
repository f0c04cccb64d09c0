//! The answer numbers 1 to 14 and 18, each with the documents' cause: document 01's 1 to 10, with the causes that the
//! requests 1/13, 5/13, 6/13, 8/13, 9/13, 10/13 and 11/13 add, the 11 and 12 into which request 3/13 splits 7, the 13 of
//! request 8/13, and the 14 and 18 of request 10/13. Number 0 is the absence of a refusal, and "7 is no longer given".

/// Why a call is refused. The lowest number that applies is given.
#[derive(Clone, Copy, Debug, PartialEq, Eq)]
#[repr(u8)]
pub(super) enum Refusal {
    /// "a space or rule space isn't 4,096 bytes, a captured device is over 31, or a function number or offset is
    /// outside its range"; of the marks of 6/13, "A bit marked both here and as writable", and "another buffer length";
    /// of 9/13, "Any other edition"; for a list of ports, "if it is longer than 32, if a secondary exceeds its
    /// subordinate, or if two ranges, ends included, meet"; for one who asks, "a kind outside the six, a device over 31,
    /// a function over 7, an offset over FFCh or not a multiple of 4, or enables over 15"; for the records of ports, "a
    /// longer list, no such port, or a record the reading can't give"; of structures, "Bad counts, versions or lengths",
    /// and "ID 0000h"; of two functions, "Equal numbers"
    Outside = 1,
    /// "the reply is under 16 bytes, or the list room is under the list's maximum"; for the router, "What leaves is
    /// written into a lent buffer; under 20 bytes it is 2"; for one who asks, "a buffer shorter than those bytes"; for the
    /// planner, "offset room below the count"
    Room = 2,
    /// "the packet has fewer than 12 bytes"; of a completion, "under 12 bytes"
    Short = 3,
    /// "the type code isn't one of the six", and by 9/13 bit 7 of byte 0 under edition 2; "Type 0 at the router", and a
    /// trusted request where the port does not support it; of a completion, "a first byte other than 4Ah and 0Ah"
    TypeCode = 4,
    /// "the packet length doesn't fit its type and digest bit"; of a completion, "a length other than 16 or 12 for that
    /// byte"
    PacketLength = 5,
    /// "a fixed header field has another value"; of a completion, "any other byte that no reply of document 01 with that
    /// first byte has at its place"
    FixedField = 6,
    /// "not the structure asked for"; of 8/13, "Not this structure"
    Structure = 8,
    /// "a wrong length, or the structure runs out of its space"; of 8/13, "fewer than 28h bytes left"
    StructureLength = 9,
    /// "function vector without exactly one bit"
    Vector = 10,
    /// Document 02, 3/13: "11 for a pointer below the floor"
    Below = 11,
    /// Document 02, 3/13: "12 for a pointer to an offset already in the chain"
    Again = 12,
    /// Document 02, 8/13: "Num Group over Max Group, or index under 12 while enabled"
    Groups = 13,
    /// Document 02, 10/13: "no layout"
    NoLayout = 14,
    /// Document 02, 10/13: "One the checker doesn't accept"
    NotAccepted = 18,
}

impl Refusal {
    /// The number that the documents fix for this cause.
    pub(super) const fn number(self) -> u8 {
        self as u8
    }
}
