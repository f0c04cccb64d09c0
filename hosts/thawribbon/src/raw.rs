//! The library's functions as they are, one for each, with numbers in the place of enums: what thawribbon.h says of
//! each holds here.
//!
//! Of these, only [`serve`] and [`serve_pair`] write into a reply that is lent, and number 0 does not say that the access was
//! done: byte 6 of the reply does, which is [`STATUS_SUCCESSFUL`](crate::STATUS_SUCCESSFUL) or
//! [`STATUS_UNSUPPORTED`](crate::STATUS_UNSUPPORTED). Nor does number 0 of [`route`] say that the packet leaves:
//! [`Routed::leaves`] does; nor that of [`read_completion`] that the access was done: [`Heard::said`] does; nor that of
//! [`judge`] that the packet leaves: [`Judged::verdict`] does. A capability that [`multicast`] refuses leaves fields of
//! zeros, which [`judge`] takes for those of a port that is not enabled: only the number tells. And only the number tells
//! whether [`plan_layout`] put offsets into the room, and whether [`write_layout`] wrote.
//!
//! Every function is safe to call: a slice has the pointer and the length that C passes by hand, and the functions take
//! any length. This is the one module with `unsafe` in it. The structs are laid out as C lays them out, and are held to
//! thawribbon.h by the sizes and offsets at the end of this file and by those of hosts/c/layout.c.

/// A board's function number, the places of the Device Correlation word in the ordinary space (`a`) and in the trusted
/// space (`b`), and its edition of byte 0.
///
/// The default is the description of no board: its `a`, its `b` and its edition are 0, and each is answered 1.
#[repr(C)]
#[derive(Clone, Copy, Debug, Default, PartialEq, Eq)]
pub struct Description {
    /// The function number, 0 to 7.
    pub function: u8,
    /// The ordinary place: a multiple of 4 from 104h to FFCh.
    pub a: u32,
    /// The trusted place: a multiple of 4 from 00Ch to FFCh.
    pub b: u32,
    /// The edition of byte 0: [`EDITION_1`](crate::EDITION_1) ignores bit 7, and [`EDITION_2`](crate::EDITION_2) gives 4
    /// when it is set. Any other number is answered 1.
    pub edition: u32,
}

/// What a board has captured: nothing where `captured` is 0, else the bus and the device number.
#[repr(C)]
#[derive(Clone, Copy, Debug, Default, PartialEq, Eq)]
pub struct Capture {
    /// 0: nothing is captured, and the other two are not looked at. Any other value: they are captured.
    pub captured: u8,
    /// The bus number.
    pub bus: u8,
    /// The device number, 0 to 31.
    pub device: u8,
}

/// The answer to a packet: the number, how many bytes of the reply are written, and the capture to keep for the next
/// packet.
#[repr(C)]
#[derive(Clone, Copy, Debug, Default, PartialEq, Eq)]
pub struct Served {
    /// How many bytes of the reply are written: 12 or 16, or 0 where refused.
    pub length: usize,
    /// 0 to 6.
    pub number: u8,
    /// The capture as given, where refused; else `captured` is 0 or 1, and bus and device are 0 where it is 0.
    pub capture: Capture,
}

/// One of the two functions of a board: its number, and the places of its Device Correlation word in its ordinary space (`a`)
/// and in its trusted space (`b`). The edition is the board's.
///
/// The default is no function: its `a` and its `b` are 0, and each is answered 1.
#[repr(C)]
#[derive(Clone, Copy, Debug, Default, PartialEq, Eq)]
pub struct Function {
    /// The function number, 0 to 7, and another than that of the other function.
    pub function: u8,
    /// The ordinary place: a multiple of 4 from 104h to FFCh.
    pub a: u32,
    /// The trusted place: a multiple of 4 from 00Ch to FFCh.
    pub b: u32,
}

/// What each of the two functions of a board has captured, for itself.
#[repr(C)]
#[derive(Clone, Copy, Debug, Default, PartialEq, Eq)]
pub struct Captures {
    /// What the primary has captured.
    pub primary: Capture,
    /// What the alternate has captured.
    pub alternate: Capture,
}

/// The answer of a board of two functions to a packet: the number, how many bytes of the reply are written, and the captures
/// to keep for the next packet.
#[repr(C)]
#[derive(Clone, Copy, Debug, Default, PartialEq, Eq)]
pub struct PairServed {
    /// How many bytes of the reply are written: 12 or 16, or 0 where refused.
    pub length: usize,
    /// 0 to 6.
    pub number: u8,
    /// The captures as given, where refused; else `captured` of each is 0 or 1, and bus and device are 0 where it is 0.
    pub kept: Captures,
}

/// The answer of a walk: the number, how many offsets are listed, and where the list broke.
#[repr(C)]
#[derive(Clone, Copy, Debug, Default, PartialEq, Eq)]
pub struct Walked {
    /// How many offsets are listed: 0 where refused.
    pub count: usize,
    /// 0, 1, 2, 11 or 12.
    pub number: u8,
    /// With 11 and 12 the offset of the structure that holds the pointer at fault, or 0 where the list's start itself is at
    /// fault; 0 with any other number.
    pub place: u16,
}

/// The number, and the fields of a DVSEC record; they are 0 where refused.
#[repr(C)]
#[derive(Clone, Copy, Debug, Default, PartialEq, Eq)]
pub struct Dvsec {
    /// 0, 1, 8 or 9.
    pub number: u8,
    /// The revision, bits 19:16 of header 1.
    pub revision: u8,
    /// The vendor, bits 15:0 of header 1.
    pub vendor: u16,
    /// The ID, the 16 bits at +8.
    pub id: u16,
    /// DVSEC Length, bits 31:20 of header 1.
    pub length: u16,
}

/// A part of a space: so many bytes from an offset on. Both are 0 where refused.
#[repr(C)]
#[derive(Clone, Copy, Debug, Default, PartialEq, Eq)]
pub struct Part {
    /// The offset of the first byte.
    pub start: usize,
    /// How many bytes.
    pub length: usize,
}

/// The number, and the alternate function and the device of a Dual-BDF record; they are 0 where refused.
#[repr(C)]
#[derive(Clone, Copy, Debug, Default, PartialEq, Eq)]
pub struct Alternate {
    /// 0, 1, 8, 9 or 10.
    pub number: u8,
    /// The alternate function, 0 to 7.
    pub function: u8,
    /// The device, 0 to 31.
    pub device: u8,
}

/// A port of a switch: the range of buses behind it, ends included, and whether it supports TCS routing.
///
/// Any values may be given; [`route`] refuses those that are no range, and ranges that meet.
#[repr(C)]
#[derive(Clone, Copy, Debug, Default, PartialEq, Eq, Hash)]
pub struct Port {
    /// The secondary bus: the first of the range, and the one right behind the port.
    pub secondary: u8,
    /// The subordinate bus: the last of the range.
    pub subordinate: u8,
    /// Whether it supports TCS routing: trusted requests leave only by a port that does.
    pub tcs: bool,
}

/// A router's answer to a packet: the number, whether it leaves, and by which port. Every field but the number is 0
/// where nothing leaves.
#[repr(C)]
#[derive(Clone, Copy, Debug, Default, PartialEq, Eq)]
pub struct Routed {
    /// How many bytes leave: 12, 16 or 20.
    pub length: usize,
    /// 0 to 6.
    pub number: u8,
    /// 1: the packet leaves. 0: it does not; with number 0 the verdict is Unsupported Request.
    pub leaves: u8,
    /// The place in the list of the port that it leaves by, 0 to 31.
    pub port: u8,
}

/// The parts of a request: its kind, who asks, which function it is for, and what it wants there.
///
/// Any values may be given; [`write_request`] refuses those outside their range.
#[repr(C)]
#[derive(Clone, Copy, Debug, Default, PartialEq, Eq, Hash)]
pub struct Parts {
    /// The offset: a multiple of 4 up to FFCh.
    pub offset: u32,
    /// The type code: 04h, 44h, 05h, 45h, 1Bh or 5Bh.
    pub kind: u8,
    /// The requester ID, as it is sent: the bus, then device × 8 + function.
    pub requester: [u8; 2],
    /// The tag, by which the requester knows the completion.
    pub tag: u8,
    /// The target's bus.
    pub bus: u8,
    /// The target's device, 0 to 31.
    pub device: u8,
    /// The target's function, 0 to 7.
    pub function: u8,
    /// The first enables, 0 to 15, the bytes that a write may change: bit 0 is the byte at the lowest address. A read is
    /// given all four bytes whatever they are, by a board from version 0.8.0 on; where one before may answer, enable all four.
    pub enables: u8,
    /// What a write writes; for a read it is not looked at.
    pub data: [u8; 4],
}

/// The answer of the writer: the number, and how many bytes of the buffer are written.
#[repr(C)]
#[derive(Clone, Copy, Debug, Default, PartialEq, Eq)]
pub struct Written {
    /// How many bytes of the buffer are written: 12 or 16, or 0 where refused.
    pub length: usize,
    /// 0, 1 or 2.
    pub number: u8,
}

/// What a completion says: the number, and its fields. Every field but the number is 0 where refused.
#[repr(C)]
#[derive(Clone, Copy, Debug, Default, PartialEq, Eq)]
pub struct Heard {
    /// 0, or 3 to 6.
    pub number: u8,
    /// 0: nothing, since it is refused. 1: success with data. 2: success without data. 3: Unsupported Request.
    pub said: u8,
    /// Who answers: the bus, then device × 8 + function.
    pub completer: [u8; 2],
    /// Who asked.
    pub requester: [u8; 2],
    /// The tag of the request.
    pub tag: u8,
    /// The four data bytes, where `said` is 1; else 0. A board before version 0.8.0 gave 00h for those not enabled.
    pub data: [u8; 4],
}

/// The Multicast capability of a port, seven numbers of 64 bits each. They are 0 where the reading is refused.
///
/// Any values may be given; [`judge`] refuses those that [`multicast`] gives for no space and offset.
#[repr(C)]
#[derive(Clone, Copy, Debug, PartialEq, Eq, Hash)]
pub struct Groups {
    /// Max Group, 0 to 63.
    pub max_group: u64,
    /// Num Group, 0 to 63: the highest group, and not how many there are. At most Max Group.
    pub num_group: u64,
    /// Enable, 0 or 1.
    pub enable: u64,
    /// Index Position, 0 to 63, and 12 or more where Enable is 1: a group's window has two to the power of it addresses.
    pub index: u64,
    /// The base address, bits 63:12 in their place: the bits below are 0.
    pub base: u64,
    /// Receive: bit `g` is 1 where group `g` leaves by this port.
    pub receive: u64,
    /// Block All: bit `g` is 1 where group `g` is dropped if it enters by this port.
    pub block_all: u64,
}

impl Groups {
    /// Seven zeros, to be written over by [`multicast`]. They are also what a capability may hold that is not enabled, so
    /// there is no `Default`: a reading that was refused is not to be made up for by them.
    pub const ZEROS: Self = Self {
        max_group: 0,
        num_group: 0,
        enable: 0,
        index: 0,
        base: 0,
        receive: 0,
        block_all: 0,
    };
}

/// The answer about an address: the number, what becomes of the packet, its group, and the ports that it leaves by. Every
/// field but the number is 0 where refused.
#[repr(C)]
#[derive(Clone, Copy, Debug, Default, PartialEq, Eq)]
pub struct Judged {
    /// Bit `k` is 1 where it leaves by port `k` of the list; 0 with every verdict but 3, and with that one it may be 0 too.
    pub ports: u32,
    /// 0 or 1.
    pub number: u8,
    /// 0: nothing, since it is refused. 1: no hit. 2: dropped where it enters. 3: it leaves.
    pub verdict: u8,
    /// With verdict 2 and 3 the group that is hit, 0 to 63; else 0.
    pub group: u8,
}

/// A structure of an extended list that is to be laid out: what it is, and how long.
///
/// Any values may be given; the three functions that take structures refuse those outside their range.
#[repr(C)]
#[derive(Clone, Copy, Debug, Default, PartialEq, Eq, Hash)]
pub struct Structure {
    /// The ID, which its header has in bits 15:0. 0000h is refused.
    pub id: u16,
    /// The version, 0 to 15.
    pub version: u16,
    /// The length in bytes with its header, 4 to 3,840.
    pub length: u16,
}

mod linked {
    use super::{
        Alternate, Capture, Captures, Description, Dvsec, Function, Groups, Heard, Judged, PairServed, Part, Parts,
        Port, Routed, Served, Structure, Walked, Written,
    };

    unsafe extern "C" {
        pub(super) fn thawribbon_serve(
            description: Description,
            kept: Capture,
            ordinary: *mut u8,
            ordinary_length: usize,
            ordinary_rules: *const u8,
            ordinary_rules_length: usize,
            ordinary_marks: *const u8,
            ordinary_marks_length: usize,
            trusted: *mut u8,
            trusted_length: usize,
            trusted_rules: *const u8,
            trusted_rules_length: usize,
            trusted_marks: *const u8,
            trusted_marks_length: usize,
            packet: *const u8,
            packet_length: usize,
            reply: *mut u8,
            reply_length: usize,
        ) -> Served;
        pub(super) safe fn thawribbon_reset(kept: Capture) -> Capture;
        pub(super) fn thawribbon_serve_pair(
            edition: u32,
            primary: Function,
            alternate: Function,
            kept: Captures,
            primary_ordinary: *mut u8,
            primary_ordinary_length: usize,
            primary_ordinary_rules: *const u8,
            primary_ordinary_rules_length: usize,
            primary_ordinary_marks: *const u8,
            primary_ordinary_marks_length: usize,
            primary_trusted: *mut u8,
            primary_trusted_length: usize,
            primary_trusted_rules: *const u8,
            primary_trusted_rules_length: usize,
            primary_trusted_marks: *const u8,
            primary_trusted_marks_length: usize,
            alternate_ordinary: *mut u8,
            alternate_ordinary_length: usize,
            alternate_ordinary_rules: *const u8,
            alternate_ordinary_rules_length: usize,
            alternate_ordinary_marks: *const u8,
            alternate_ordinary_marks_length: usize,
            alternate_trusted: *mut u8,
            alternate_trusted_length: usize,
            alternate_trusted_rules: *const u8,
            alternate_trusted_rules_length: usize,
            alternate_trusted_marks: *const u8,
            alternate_trusted_marks_length: usize,
            packet: *const u8,
            packet_length: usize,
            reply: *mut u8,
            reply_length: usize,
        ) -> PairServed;
        pub(super) safe fn thawribbon_reset_pair(kept: Captures) -> Captures;
        pub(super) fn thawribbon_walk_compatible(
            space: *const u8,
            space_length: usize,
            room: *mut u16,
            room_length: usize,
        ) -> Walked;
        pub(super) fn thawribbon_walk_extended(
            space: *const u8,
            space_length: usize,
            room: *mut u16,
            room_length: usize,
        ) -> Walked;
        pub(super) fn thawribbon_walk_trusted(
            space: *const u8,
            space_length: usize,
            room: *mut u16,
            room_length: usize,
        ) -> Walked;
        pub(super) fn thawribbon_dvsec(space: *const u8, space_length: usize, at: usize) -> Dvsec;
        pub(super) fn thawribbon_dvsec_body(space: *const u8, space_length: usize, at: usize) -> Part;
        pub(super) fn thawribbon_dual_bdf(space: *const u8, space_length: usize, at: usize) -> Alternate;
        pub(super) fn thawribbon_route(
            ports: *const Port,
            ports_length: usize,
            packet: *const u8,
            packet_length: usize,
            leaving: *mut u8,
            leaving_length: usize,
        ) -> Routed;
        pub(super) fn thawribbon_write_request(parts: Parts, buffer: *mut u8, buffer_length: usize) -> Written;
        pub(super) fn thawribbon_read_completion(completion: *const u8, completion_length: usize) -> Heard;
        pub(super) fn thawribbon_multicast(space: *const u8, space_length: usize, at: usize, groups: *mut Groups)
        -> u8;
        pub(super) fn thawribbon_judge(
            ports: *const Groups,
            ports_length: usize,
            entering: usize,
            address: u64,
        ) -> Judged;
        pub(super) fn thawribbon_plan_layout(
            structures: *const Structure,
            structures_length: usize,
            room: *mut u16,
            room_length: usize,
        ) -> u8;
        pub(super) fn thawribbon_check_layout(
            structures: *const Structure,
            structures_length: usize,
            offsets: *const u16,
            offsets_length: usize,
        ) -> u8;
        pub(super) fn thawribbon_write_layout(
            structures: *const Structure,
            structures_length: usize,
            offsets: *const u16,
            offsets_length: usize,
            space: *mut u8,
            space_length: usize,
        ) -> u8;
    }
}

/// Answers a packet.
///
/// ```
/// use thawribbon::raw::{Capture, Description, Served, serve};
/// use thawribbon::{EDITION_1, NO_MARKS};
///
/// let (mut ordinary, mut trusted, rules, mut reply) = ([0; 4096], [0; 4096], [0xFF; 4096], [0; 16]);
/// let description = Description { function: 0, a: 0x104, b: 0x00C, edition: EDITION_1 };
/// let fresh = Capture::default();
///
/// // P2's packet.
/// let packet = [0x44, 0x00, 0x00, 0x01, 0x01, 0x00, 0x07, 0x0F, 0x05, 0x18, 0x00, 0x04, 0x11, 0x22, 0x33, 0x44];
/// let served =
///     serve(description, fresh, &mut ordinary, &rules, &NO_MARKS, &mut trusted, &rules, &NO_MARKS, &packet, &mut reply);
/// assert_eq!(served, Served { length: 12, number: 0, capture: Capture { captured: 1, bus: 0x05, device: 3 } });
/// ```
#[allow(clippy::too_many_arguments)]
#[must_use = "it says whether the packet was served, and what the board has captured then"]
#[inline]
pub fn serve(
    description: Description,
    kept: Capture,
    ordinary: &mut [u8],
    ordinary_rules: &[u8],
    ordinary_marks: &[u8],
    trusted: &mut [u8],
    trusted_rules: &[u8],
    trusted_marks: &[u8],
    packet: &[u8],
    reply: &mut [u8],
) -> Served {
    // SAFETY: each pointer goes with its slice's length, and a slice that is written is lent only once.
    unsafe {
        linked::thawribbon_serve(
            description,
            kept,
            ordinary.as_mut_ptr(),
            ordinary.len(),
            ordinary_rules.as_ptr(),
            ordinary_rules.len(),
            ordinary_marks.as_ptr(),
            ordinary_marks.len(),
            trusted.as_mut_ptr(),
            trusted.len(),
            trusted_rules.as_ptr(),
            trusted_rules.len(),
            trusted_marks.as_ptr(),
            trusted_marks.len(),
            packet.as_ptr(),
            packet.len(),
            reply.as_mut_ptr(),
            reply.len(),
        )
    }
}

/// Forgets what a board has captured.
///
/// ```
/// use thawribbon::raw::{Capture, reset};
///
/// assert_eq!(reset(Capture { captured: 1, bus: 0x05, device: 3 }), Capture { captured: 0, bus: 0, device: 0 });
/// ```
#[must_use = "the capture that is given is not changed: this is the one to keep"]
#[inline]
pub fn reset(kept: Capture) -> Capture {
    linked::thawribbon_reset(kept)
}

/// Answers a packet at a board of two functions.
///
/// ```
/// use thawribbon::raw::{Capture, Captures, Function, PairServed, serve_pair};
/// use thawribbon::{EDITION_1, NO_MARKS};
///
/// let [mut one, mut two, mut three, mut four, rules] = [[0; 4096]; 5];
/// let (primary, alternate) = (Function { function: 0, a: 0x104, b: 0x00C }, Function { function: 1, a: 0x104, b: 0x00C });
/// let (fresh, mut reply) = (Captures::default(), [0; 16]);
///
/// // P2's packet for function 1: the alternate captures.
/// let packet = [0x44, 0x00, 0x00, 0x01, 0x01, 0x00, 0x07, 0x0F, 0x05, 0x19, 0x00, 0x04, 0x11, 0x22, 0x33, 0x44];
/// let served = serve_pair(
///     EDITION_1, primary, alternate, fresh,
///     &mut one, &rules, &NO_MARKS, &mut two, &rules, &NO_MARKS,
///     &mut three, &rules, &NO_MARKS, &mut four, &rules, &NO_MARKS,
///     &packet, &mut reply,
/// );
/// let kept = Captures { alternate: Capture { captured: 1, bus: 0x05, device: 3 }, ..fresh };
/// assert_eq!(served, PairServed { length: 12, number: 0, kept });
/// ```
#[allow(clippy::too_many_arguments)]
#[must_use = "it says whether the packet was served, and what the functions have captured then"]
#[inline]
pub fn serve_pair(
    edition: u32,
    primary: Function,
    alternate: Function,
    kept: Captures,
    primary_ordinary: &mut [u8],
    primary_ordinary_rules: &[u8],
    primary_ordinary_marks: &[u8],
    primary_trusted: &mut [u8],
    primary_trusted_rules: &[u8],
    primary_trusted_marks: &[u8],
    alternate_ordinary: &mut [u8],
    alternate_ordinary_rules: &[u8],
    alternate_ordinary_marks: &[u8],
    alternate_trusted: &mut [u8],
    alternate_trusted_rules: &[u8],
    alternate_trusted_marks: &[u8],
    packet: &[u8],
    reply: &mut [u8],
) -> PairServed {
    // SAFETY: each pointer goes with its slice's length, and a slice that is written is lent only once.
    unsafe {
        linked::thawribbon_serve_pair(
            edition,
            primary,
            alternate,
            kept,
            primary_ordinary.as_mut_ptr(),
            primary_ordinary.len(),
            primary_ordinary_rules.as_ptr(),
            primary_ordinary_rules.len(),
            primary_ordinary_marks.as_ptr(),
            primary_ordinary_marks.len(),
            primary_trusted.as_mut_ptr(),
            primary_trusted.len(),
            primary_trusted_rules.as_ptr(),
            primary_trusted_rules.len(),
            primary_trusted_marks.as_ptr(),
            primary_trusted_marks.len(),
            alternate_ordinary.as_mut_ptr(),
            alternate_ordinary.len(),
            alternate_ordinary_rules.as_ptr(),
            alternate_ordinary_rules.len(),
            alternate_ordinary_marks.as_ptr(),
            alternate_ordinary_marks.len(),
            alternate_trusted.as_mut_ptr(),
            alternate_trusted.len(),
            alternate_trusted_rules.as_ptr(),
            alternate_trusted_rules.len(),
            alternate_trusted_marks.as_ptr(),
            alternate_trusted_marks.len(),
            packet.as_ptr(),
            packet.len(),
            reply.as_mut_ptr(),
            reply.len(),
        )
    }
}

/// Forgets what the two functions of a board have captured.
///
/// ```
/// use thawribbon::raw::{Capture, Captures, reset_pair};
///
/// let capture = Capture { captured: 1, bus: 0x05, device: 3 };
/// assert_eq!(reset_pair(Captures { primary: capture, alternate: capture }), Captures::default());
/// ```
#[must_use = "the captures that are given are not changed: these are the ones to keep"]
#[inline]
pub fn reset_pair(kept: Captures) -> Captures {
    linked::thawribbon_reset_pair(kept)
}

/// Lists the offsets of the compatible list.
///
/// ```
/// use thawribbon::raw::{Walked, walk_compatible};
///
/// let (mut space, mut room) = ([0; 4096], [0; 48]);
/// (space[0x06], space[0x34]) = (0x10, 0x40);
/// assert_eq!(walk_compatible(&space, &mut room), Walked { count: 1, number: 0, place: 0 });
/// assert_eq!(room[0], 0x40);
/// ```
#[must_use]
#[inline]
pub fn walk_compatible(space: &[u8], room: &mut [u16]) -> Walked {
    // SAFETY: each pointer goes with its slice's length, and the room is lent once.
    unsafe { linked::thawribbon_walk_compatible(space.as_ptr(), space.len(), room.as_mut_ptr(), room.len()) }
}

/// Lists the offsets of the extended list.
///
/// ```
/// use thawribbon::raw::{Walked, walk_extended};
///
/// let (mut space, mut room) = ([0; 4096], [0; 960]);
/// space[0x100..0x104].copy_from_slice(&[0x23, 0x00, 0x01, 0x10]); // P12: it points to itself
/// assert_eq!(walk_extended(&space, &mut room), Walked { count: 0, number: 12, place: 0x100 });
/// ```
#[must_use]
#[inline]
pub fn walk_extended(space: &[u8], room: &mut [u16]) -> Walked {
    // SAFETY: each pointer goes with its slice's length, and the room is lent once.
    unsafe { linked::thawribbon_walk_extended(space.as_ptr(), space.len(), room.as_mut_ptr(), room.len()) }
}

/// Lists the offsets of the trusted list.
///
/// ```
/// use thawribbon::raw::{Walked, walk_trusted};
///
/// let (mut space, mut room) = ([0; 4096], [0; 1022]);
/// space[0x004] = 0x08;
/// assert_eq!(walk_trusted(&space, &mut room), Walked { count: 1, number: 0, place: 0 });
/// assert_eq!(room[0], 0x008);
/// ```
#[must_use]
#[inline]
pub fn walk_trusted(space: &[u8], room: &mut [u16]) -> Walked {
    // SAFETY: each pointer goes with its slice's length, and the room is lent once.
    unsafe { linked::thawribbon_walk_trusted(space.as_ptr(), space.len(), room.as_mut_ptr(), room.len()) }
}

/// Reads the header of the DVSEC record at an offset.
///
/// ```
/// use thawribbon::raw::{Dvsec, dvsec};
///
/// assert_eq!(dvsec(&[0; 4096], 0x100), Dvsec { number: 8, revision: 0, vendor: 0, id: 0, length: 0 });
/// ```
#[must_use]
#[inline]
pub fn dvsec(space: &[u8], at: usize) -> Dvsec {
    // SAFETY: the pointer goes with its slice's length, and nothing is written.
    unsafe { linked::thawribbon_dvsec(space.as_ptr(), space.len(), at) }
}

/// Tells where the register body of the DVSEC record at an offset lies in the space.
///
/// ```
/// use thawribbon::raw::{Part, dvsec_body};
///
/// let mut space = [0; 4096]; // with P11's record
/// space[0x100..0x10A].copy_from_slice(&[0x23, 0x00, 0x01, 0x00, 0xC0, 0x1E, 0x00, 0x01, 0x02, 0x00]);
/// assert_eq!(dvsec_body(&space, 0x100), Part { start: 0x10A, length: 6 });
/// assert_eq!(dvsec_body(&space, 0x104), Part { start: 0, length: 0 });
/// ```
#[must_use]
#[inline]
pub fn dvsec_body(space: &[u8], at: usize) -> Part {
    // SAFETY: the pointer goes with its slice's length, and nothing is written.
    unsafe { linked::thawribbon_dvsec_body(space.as_ptr(), space.len(), at) }
}

/// Reads the Dual-BDF record at an offset.
///
/// ```
/// use thawribbon::raw::{Alternate, dual_bdf};
///
/// let mut space = [0; 4096]; // with P9's record
/// space[0x040..0x04C].copy_from_slice(&[0x09, 0x00, 0x0C, 0x00, 0xC0, 0x1E, 0xC0, 0x00, 0x02, 0x00, 0x02, 0x03]);
/// assert_eq!(dual_bdf(&space, 0x040), Alternate { number: 0, function: 1, device: 3 });
/// ```
#[must_use]
#[inline]
pub fn dual_bdf(space: &[u8], at: usize) -> Alternate {
    // SAFETY: the pointer goes with its slice's length, and nothing is written.
    unsafe { linked::thawribbon_dual_bdf(space.as_ptr(), space.len(), at) }
}

/// Routes a packet.
///
/// ```
/// use thawribbon::raw::{Port, Routed, route};
///
/// let ports = [Port { secondary: 0x05, subordinate: 0x07, tcs: true }];
/// let mut leaving = [0; 20];
///
/// // A Type 1 write for bus 05h, the port's secondary: it leaves as P2's packet, which is Type 0.
/// let packet = [0x45, 0x00, 0x00, 0x01, 0x01, 0x00, 0x07, 0x0F, 0x05, 0x18, 0x00, 0x04, 0x11, 0x22, 0x33, 0x44];
/// assert_eq!(route(&ports, &packet, &mut leaving), Routed { length: 16, number: 0, leaves: 1, port: 0 });
/// assert_eq!((leaving[0], &leaving[1..16]), (0x44, &packet[1..]));
/// ```
#[must_use = "it says whether the packet leaves, and by which port"]
#[inline]
pub fn route(ports: &[Port], packet: &[u8], leaving: &mut [u8]) -> Routed {
    // SAFETY: each pointer goes with its slice's length, and what leaves is written into a slice that is lent once.
    unsafe {
        linked::thawribbon_route(
            ports.as_ptr(),
            ports.len(),
            packet.as_ptr(),
            packet.len(),
            leaving.as_mut_ptr(),
            leaving.len(),
        )
    }
}

/// Writes a request.
///
/// ```
/// use thawribbon::raw::{Parts, Written, write_request};
///
/// // P1's packet, from its parts.
/// let parts = Parts {
///     kind: 0x1B, requester: [0x01, 0x00], tag: 0x08, bus: 0x05, device: 3, function: 0, offset: 0x004, enables: 0x0F, data: [0; 4],
/// };
/// let mut buffer = [0; 12];
/// assert_eq!(write_request(parts, &mut buffer), Written { length: 12, number: 0 });
/// assert_eq!(buffer, [0x1B, 0x00, 0x00, 0x01, 0x01, 0x00, 0x08, 0x0F, 0x05, 0x18, 0x00, 0x04]);
/// ```
#[must_use = "it says whether there is a request, and how long it is"]
#[inline]
pub fn write_request(parts: Parts, buffer: &mut [u8]) -> Written {
    // SAFETY: the pointer goes with its slice's length, and the buffer is lent once.
    unsafe { linked::thawribbon_write_request(parts, buffer.as_mut_ptr(), buffer.len()) }
}

/// Reads a completion back.
///
/// ```
/// use thawribbon::raw::{Heard, read_completion};
///
/// // P3's completion: success with data.
/// let completion = [0x4A, 0x00, 0x00, 0x01, 0x05, 0x18, 0x00, 0x04, 0x01, 0x00, 0x08, 0x00, 0x08, 0x00, 0x00, 0x00];
/// let heard = Heard { number: 0, said: 1, completer: [0x05, 0x18], requester: [0x01, 0x00], tag: 0x08, data: [0x08, 0, 0, 0] };
/// assert_eq!(read_completion(&completion), heard);
/// assert_eq!(read_completion(&completion[..15]), Heard { number: 5, ..Heard::default() });
/// ```
#[must_use = "it says whether the access was done"]
#[inline]
pub fn read_completion(completion: &[u8]) -> Heard {
    // SAFETY: the pointer goes with its slice's length, and nothing is written.
    unsafe { linked::thawribbon_read_completion(completion.as_ptr(), completion.len()) }
}

/// Reads the Multicast capability at an offset: the number, which is 0, 1, 8, 9 or 13. Every field of `groups` is written,
/// and is 0 where refused.
///
/// ```
/// use thawribbon::raw::{Groups, multicast};
///
/// let mut space = [0; 4096]; // four groups of 4 KiB each from 8_0000_0000h on, of which group 2 is received
/// space[0x100..0x10C].copy_from_slice(&[0x12, 0x00, 0x01, 0x00, 0x3F, 0x00, 0x03, 0x80, 0x0C, 0x00, 0x00, 0x00]);
/// (space[0x10C], space[0x110]) = (0x08, 0x04);
/// let mut groups = Groups::ZEROS;
/// assert_eq!(multicast(&space, 0x100, &mut groups), 0);
/// let base = 0x8_0000_0000;
/// assert_eq!(groups, Groups { max_group: 63, num_group: 3, enable: 1, index: 12, base, receive: 0b100, block_all: 0 });
/// ```
#[must_use = "it says whether the capability was read: the fields are 0 where it was not"]
#[inline]
pub fn multicast(space: &[u8], at: usize, groups: &mut Groups) -> u8 {
    // SAFETY: the pointer goes with its slice's length, and the fields, seven numbers of 64 bits, are lent once.
    unsafe { linked::thawribbon_multicast(space.as_ptr(), space.len(), at, groups) }
}

/// Judges an address, given the Multicast capability of each port and the place in the list of the one it enters by.
///
/// ```
/// use thawribbon::raw::{Groups, Judged, judge};
///
/// let (base, enters) = (0x8_0000_0000, Groups { max_group: 63, num_group: 3, enable: 1, index: 12, ..Groups::ZEROS });
/// let ports = [Groups { base, ..enters }, Groups { receive: 0b100, ..enters }];
/// assert_eq!(judge(&ports, 0, base + 0x2FFF), Judged { number: 0, verdict: 3, group: 2, ports: 0b10 });
/// assert_eq!(judge(&ports, 0, base + 0x4000), Judged { number: 0, verdict: 1, group: 0, ports: 0 });
/// assert_eq!(judge(&ports, 2, base), Judged { number: 1, verdict: 0, group: 0, ports: 0 });
/// ```
#[must_use = "it says what becomes of the packet, and by which ports it leaves"]
#[inline]
pub fn judge(ports: &[Groups], entering: usize, address: u64) -> Judged {
    // SAFETY: the pointer goes with its slice's length, and nothing is written.
    unsafe { linked::thawribbon_judge(ports.as_ptr(), ports.len(), entering, address) }
}

/// Plans a layout: the number, which is 0, 1, 2 or 14. With 0 the offsets are at the beginning of the room, one for each
/// structure.
///
/// ```
/// use thawribbon::raw::{Structure, plan_layout};
///
/// // The second begins at the first multiple of 4 behind the first.
/// let structures = [Structure { id: 0x23, version: 1, length: 22 }, Structure { id: 0x0C, version: 1, length: 8 }];
/// let mut room = [0; 3];
/// assert_eq!(plan_layout(&structures, &mut room), 0);
/// assert_eq!(room, [0x100, 0x118, 0]);
/// assert_eq!(plan_layout(&structures, &mut room[..1]), 2);
/// ```
#[must_use = "it says whether there is a layout: the room is as it was where there is none"]
#[inline]
pub fn plan_layout(structures: &[Structure], room: &mut [u16]) -> u8 {
    // SAFETY: each pointer goes with its slice's length, and the room is lent once.
    unsafe { linked::thawribbon_plan_layout(structures.as_ptr(), structures.len(), room.as_mut_ptr(), room.len()) }
}

/// Checks a layout: the number, which is 0, 1 or 18. Only 0 says that it is accepted.
///
/// ```
/// use thawribbon::raw::{Structure, check_layout};
///
/// let structures = [Structure { id: 0x23, version: 1, length: 22 }, Structure { id: 0x0C, version: 1, length: 8 }];
/// assert_eq!(check_layout(&structures, &[0x100, 0xFF8]), 0);
/// assert_eq!(check_layout(&structures, &[0x100, 0x114]), 18); // the first ends behind 114h
/// ```
#[must_use = "it says whether the layout is accepted"]
#[inline]
pub fn check_layout(structures: &[Structure], offsets: &[u16]) -> u8 {
    // SAFETY: each pointer goes with its slice's length, and nothing is written.
    unsafe { linked::thawribbon_check_layout(structures.as_ptr(), structures.len(), offsets.as_ptr(), offsets.len()) }
}

/// Writes the headers of a layout into a space: the number, which is 0, 1 or 18. Only 0 says that they are written.
///
/// ```
/// use thawribbon::raw::{Structure, write_layout};
///
/// let structures = [Structure { id: 0x23, version: 1, length: 22 }, Structure { id: 0x0C, version: 2, length: 8 }];
/// let mut space = [0xEE; 4096];
/// assert_eq!(write_layout(&structures, &[0x100, 0x118], &mut space), 0);
/// assert_eq!(space[0x100..0x105], [0x23, 0x00, 0x81, 0x11, 0xEE]); // it points to 118h
/// assert_eq!(space[0x118..0x11D], [0x0C, 0x00, 0x02, 0x00, 0xEE]); // and this one is the last
/// ```
#[must_use = "it says whether the headers are written: the space is as it was where they are not"]
#[inline]
pub fn write_layout(structures: &[Structure], offsets: &[u16], space: &mut [u8]) -> u8 {
    // SAFETY: each pointer goes with its slice's length, and the space is lent once.
    unsafe {
        linked::thawribbon_write_layout(
            structures.as_ptr(),
            structures.len(),
            offsets.as_ptr(),
            offsets.len(),
            space.as_mut_ptr(),
            space.len(),
        )
    }
}

// What crosses to the linked functions: the same sizes and offsets as in hosts/c/layout.c. A wrong one ends the
// build here.
const _: () = {
    use std::mem::{offset_of, size_of};
    assert!(size_of::<Description>() == 16 && offset_of!(Description, a) == 4 && offset_of!(Description, b) == 8);
    assert!(offset_of!(Description, edition) == 12);
    assert!(size_of::<Capture>() == 3 && offset_of!(Capture, bus) == 1 && offset_of!(Capture, device) == 2);
    assert!(size_of::<Served>() == 16 && offset_of!(Served, number) == 8 && offset_of!(Served, capture) == 9);
    assert!(size_of::<Function>() == 12 && offset_of!(Function, a) == 4 && offset_of!(Function, b) == 8);
    assert!(size_of::<Captures>() == 6 && offset_of!(Captures, alternate) == 3);
    assert!(size_of::<PairServed>() == 16 && offset_of!(PairServed, number) == 8 && offset_of!(PairServed, kept) == 9);
    assert!(size_of::<Walked>() == 16 && offset_of!(Walked, number) == 8 && offset_of!(Walked, place) == 10);
    assert!(size_of::<Dvsec>() == 8 && offset_of!(Dvsec, vendor) == 2);
    assert!(offset_of!(Dvsec, id) == 4 && offset_of!(Dvsec, length) == 6);
    assert!(size_of::<Part>() == 16 && offset_of!(Part, length) == 8);
    assert!(size_of::<Alternate>() == 3 && offset_of!(Alternate, function) == 1 && offset_of!(Alternate, device) == 2);
    assert!(size_of::<Port>() == 3 && offset_of!(Port, subordinate) == 1 && offset_of!(Port, tcs) == 2);
    assert!(size_of::<Routed>() == 16 && offset_of!(Routed, number) == 8);
    assert!(offset_of!(Routed, leaves) == 9 && offset_of!(Routed, port) == 10);
    assert!(size_of::<Parts>() == 16 && offset_of!(Parts, kind) == 4 && offset_of!(Parts, requester) == 5);
    assert!(offset_of!(Parts, tag) == 7 && offset_of!(Parts, bus) == 8 && offset_of!(Parts, device) == 9);
    assert!(offset_of!(Parts, function) == 10 && offset_of!(Parts, enables) == 11 && offset_of!(Parts, data) == 12);
    assert!(size_of::<Written>() == 16 && offset_of!(Written, number) == 8);
    assert!(size_of::<Heard>() == 11 && offset_of!(Heard, said) == 1 && offset_of!(Heard, completer) == 2);
    assert!(offset_of!(Heard, requester) == 4 && offset_of!(Heard, tag) == 6 && offset_of!(Heard, data) == 7);
    assert!(size_of::<Groups>() == 56 && offset_of!(Groups, num_group) == 8 && offset_of!(Groups, enable) == 16);
    assert!(offset_of!(Groups, index) == 24 && offset_of!(Groups, base) == 32);
    assert!(offset_of!(Groups, receive) == 40 && offset_of!(Groups, block_all) == 48);
    assert!(size_of::<Judged>() == 8 && offset_of!(Judged, number) == 4);
    assert!(offset_of!(Judged, verdict) == 5 && offset_of!(Judged, group) == 6);
    assert!(size_of::<Structure>() == 6 && offset_of!(Structure, version) == 2 && offset_of!(Structure, length) == 4);
};
