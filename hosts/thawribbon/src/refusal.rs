//! Why a call is refused: the answer numbers 1 to 14 without 7, and 18, named once for Rust.

use crate::{Offset, raw};
use std::error::Error;
use std::fmt;

/// Why nothing was done. Each variant is an answer number, and says when it is given: by document 01, and by what document
/// 02 adds and changes. No variant is 7, which is given no more.
///
/// After a refusal no lent byte and no capture has changed.
/// A later version can have more of them: document 02 of the project announces some.
#[derive(Clone, Copy, PartialEq, Eq, Hash)]
#[non_exhaustive]
pub enum Refusal {
    /// A space, its rules or its marks aren't 4,096 bytes, a bit is 1 in the rules and in the marks of a space, a captured
    /// device is over 31, a function number or A or B is outside its range, the edition is neither 1 nor 2, which only
    /// [`raw`](crate::raw) can say, or a record is asked for where none may stand. Of a board of two functions: any of this
    /// is so of either, or both have one number.
    /// At a router: a list has over 32 ports, a port's secondary bus is over its subordinate bus, or two ranges of buses
    /// meet. Of a request to be written: its kind is none of the six, a device is over 31, a function over 7, its offset
    /// over FFCh or not a multiple of 4, or its enables over 15. Of an address to be judged: the list has over 32 ports, the
    /// packet enters by none of them, or a port's fields are such as no reading gives. Of structures to be laid out: there
    /// are none or over 960, an ID is 0000h, a version over 15, or a length outside 4 to 3,840. The overlaps that its text
    /// names can only be in C.
    BadDescription,
    /// The reply is under 16 bytes, the list room is under the list's maximum, the buffer for what leaves is under 20
    /// bytes, the buffer for a request is shorter than the request, or the room for a layout has fewer numbers than there
    /// are structures.
    NoRoom,
    /// The packet, or the completion, has fewer than 12 bytes.
    ShortPacket,
    /// The type code isn't one of the six. At a board of [`Edition::Two`](crate::Edition::Two), also where bit 7 of byte 0 is
    /// set. At a router, also where it is Type 0, or where it is trusted and the port does not support TCS routing. Of a
    /// completion: its first byte is neither 4Ah nor 0Ah.
    UnknownType,
    /// The packet length doesn't fit its type and digest bit; the completion's isn't 16 with first byte 4Ah, or 12 with
    /// 0Ah.
    WrongLength,
    /// A fixed header field has another value. Of a completion: any other byte is one that no reply with its first byte has
    /// at its place.
    WrongField,
    /// Not the structure asked for.
    OtherStructure,
    /// A wrong length, or the structure runs out of its space.
    WrongExtent,
    /// A function vector without exactly one bit.
    NotOneFunction,
    /// A list is broken: no finite legal chain leads from its start to an end. On the way the walk comes to a pointer below
    /// the list's floor.
    BelowFloor {
        /// The offset of the structure that holds this pointer; `None` where it is the list's start.
        place: Option<Offset>,
    },
    /// A list is broken: no finite legal chain leads from its start to an end. On the way the walk comes to a pointer that
    /// leads to an offset already in the chain.
    ComesBack {
        /// The offset of the structure that holds this pointer. A list's start comes before all others, and leads back to
        /// none.
        place: Offset,
    },
    /// Of a Multicast capability: Num Group is over Max Group, or it is enabled with an Index Position under 12.
    WrongGroups,
    /// Of structures to be laid out: no layout of them is acceptable. Their lengths before the last, each rounded up to 4,
    /// plus the last as it stands exceed 3,840.
    NoLayout,
    /// Of a layout: the checker does not accept it.
    NotAccepted,
}

impl Refusal {
    /// The answer number: 1 to 6, 8 to 14, or 18.
    ///
    /// ```
    /// use thawribbon::Refusal;
    ///
    /// assert_eq!(Refusal::BadDescription.number(), 1);
    /// assert_eq!(Refusal::ComesBack { place: 0x100 }.number(), 12);
    /// ```
    #[must_use]
    pub const fn number(self) -> u8 {
        match self {
            Refusal::BadDescription => 1,
            Refusal::NoRoom => 2,
            Refusal::ShortPacket => 3,
            Refusal::UnknownType => 4,
            Refusal::WrongLength => 5,
            Refusal::WrongField => 6,
            Refusal::OtherStructure => 8,
            Refusal::WrongExtent => 9,
            Refusal::NotOneFunction => 10,
            Refusal::BelowFloor { .. } => 11,
            Refusal::ComesBack { .. } => 12,
            Refusal::WrongGroups => 13,
            Refusal::NoLayout => 14,
            Refusal::NotAccepted => 18,
        }
    }

    /// Where a list is broken: the offset of the structure that holds the pointer at fault. `None` where the list's start is
    /// at fault, and for a refusal that is of no list.
    ///
    /// ```
    /// use thawribbon::Refusal;
    ///
    /// assert_eq!(Refusal::ComesBack { place: 0x180 }.place(), Some(0x180));
    /// assert_eq!(Refusal::BelowFloor { place: None }.place(), None);
    /// assert_eq!(Refusal::NoRoom.place(), None);
    /// ```
    #[must_use]
    pub const fn place(self) -> Option<Offset> {
        match self {
            Refusal::BelowFloor { place } => place,
            Refusal::ComesBack { place } => Some(place),
            _ => None,
        }
    }

    /// What the number says, in the words that `thawribbon_text` of the C header has. Written out, a refusal says its number
    /// and its place too.
    ///
    /// ```
    /// use thawribbon::Refusal;
    ///
    /// assert_eq!(Refusal::NotOneFunction.text(), "the function vector does not have exactly one bit");
    /// assert_eq!(
    ///     Refusal::NotOneFunction.to_string(),
    ///     "refused with 10: the function vector does not have exactly one bit"
    /// );
    /// assert_eq!(
    ///     Refusal::BelowFloor { place: Some(0x1C0) }.to_string(),
    ///     "refused with 11: a pointer of the list is below its floor, in the structure at 1C0h"
    /// );
    /// ```
    #[must_use]
    pub const fn text(self) -> &'static str {
        match self {
            Refusal::BadDescription => {
                "a space, rules or marks of 4,096 bytes are not lent, a bit is in both the rules and the marks of a space, \
                 a captured device is over 31, \
                 a function number or A or B is outside its range, the edition is neither 1 nor 2, \
                 the two functions of a board have one number, a record is asked for where none may stand, \
                 a list has over 32 ports, a secondary bus over its subordinate bus, or two ranges that meet, \
                 a packet enters by no port of the list, a port's Multicast fields are such as no reading gives, \
                 what leaves overlaps the ports or the packet, what is heard overlaps the board, \
                 structures to be laid out are none or over 960, one has ID 0000h, a version over 15 \
                 or a length outside 4 to 3,840, a layout, its structures and its space overlap, \
                 or a request has a kind outside the six, a device over 31, a function over 7, \
                 an offset over FFCh or not a multiple of 4, or enables over 15"
            }
            Refusal::NoRoom => {
                "the reply is under 16 bytes, the list room is under the list's maximum, \
                 the buffer for what leaves is under 20 bytes, the buffer for a request is shorter than its bytes, \
                 or the room for a layout has fewer numbers than there are structures"
            }
            Refusal::ShortPacket => "the packet or the completion has fewer than 12 bytes",
            Refusal::UnknownType => {
                "the packet's type code is not one of the six that are served, \
                 bit 7 of its byte 0 is set and the board is of edition 2, or the router does not pass it on: \
                 it is Type 0, or it is trusted and its port does not support TCS routing; \
                 or the completion's first byte is neither 4Ah nor 0Ah"
            }
            Refusal::WrongLength => {
                "the packet's length does not fit its type and digest bit, \
                 or the completion's length does not fit its first byte"
            }
            Refusal::WrongField => {
                "a fixed field of the packet's header has another value, \
                 or the completion has a byte that no reply has at its place"
            }
            Refusal::OtherStructure => "this is not the structure asked for",
            Refusal::WrongExtent => "the structure has a wrong length, or runs out of its space",
            Refusal::NotOneFunction => "the function vector does not have exactly one bit",
            Refusal::BelowFloor { .. } => "a pointer of the list is below its floor",
            Refusal::ComesBack { .. } => "a pointer of the list leads to an offset that is already in the chain",
            Refusal::WrongGroups => {
                "the Multicast capability has a Num Group over its Max Group, \
                 or is enabled with an Index Position under 12"
            }
            Refusal::NoLayout => {
                "no layout of these structures is acceptable: \
                 the lengths before the last, each rounded up to 4, plus the last as it stands exceed 3,840"
            }
            Refusal::NotAccepted => {
                "the layout is not accepted: it does not have one offset a structure, the first is not 100h, \
                 one is not a multiple of 4, they do not rise in the given order, two structures overlap, \
                 or one ends past 1000h"
            }
        }
    }
}

impl fmt::Display for Refusal {
    fn fmt(&self, formatter: &mut fmt::Formatter<'_>) -> fmt::Result {
        write!(formatter, "refused with {}: {}", self.number(), self.text())?;
        match self {
            Refusal::BelowFloor { place: None } => write!(formatter, ": the list's start itself"),
            Refusal::BelowFloor { place: Some(place) } | Refusal::ComesBack { place } => {
                write!(formatter, ", in the structure at {place:03X}h")
            }
            _ => Ok(()),
        }
    }
}

/// As it stands in a program, a place in hexadecimal: what a `main` that returns it prints.
///
/// ```
/// use thawribbon::Refusal;
///
/// assert_eq!(format!("{:?}", Refusal::ComesBack { place: 0x1C0 }), "ComesBack { place: 0x1C0 }");
/// ```
impl fmt::Debug for Refusal {
    fn fmt(&self, formatter: &mut fmt::Formatter<'_>) -> fmt::Result {
        formatter.write_str(match self {
            Refusal::BadDescription => "BadDescription",
            Refusal::NoRoom => "NoRoom",
            Refusal::ShortPacket => "ShortPacket",
            Refusal::UnknownType => "UnknownType",
            Refusal::WrongLength => "WrongLength",
            Refusal::WrongField => "WrongField",
            Refusal::OtherStructure => "OtherStructure",
            Refusal::WrongExtent => "WrongExtent",
            Refusal::NotOneFunction => "NotOneFunction",
            Refusal::BelowFloor { place: None } => "BelowFloor { place: None }",
            Refusal::BelowFloor { place: Some(place) } => {
                return write!(formatter, "BelowFloor {{ place: Some({place:#05X}) }}");
            }
            Refusal::ComesBack { place } => return write!(formatter, "ComesBack {{ place: {place:#05X} }}"),
            Refusal::WrongGroups => "WrongGroups",
            Refusal::NoLayout => "NoLayout",
            Refusal::NotAccepted => "NotAccepted",
        })
    }
}

impl Error for Refusal {}

/// The refusal with this number, and this place of a list; none where the number is no refusal's.
#[inline]
const fn refusal(number: u8, place: Offset) -> Option<Refusal> {
    Some(match number {
        1 => Refusal::BadDescription,
        2 => Refusal::NoRoom,
        3 => Refusal::ShortPacket,
        4 => Refusal::UnknownType,
        5 => Refusal::WrongLength,
        6 => Refusal::WrongField,
        8 => Refusal::OtherStructure,
        9 => Refusal::WrongExtent,
        10 => Refusal::NotOneFunction,
        11 if place == 0 => Refusal::BelowFloor { place: None },
        11 => Refusal::BelowFloor { place: Some(place) },
        12 => Refusal::ComesBack { place },
        13 => Refusal::WrongGroups,
        14 => Refusal::NoLayout,
        18 => Refusal::NotAccepted,
        _ => return None,
    })
}

/// An answer number taken apart: 0 is no refusal.
///
/// # Panics
///
/// Where it is no answer number. The library of this crate gives none; only another archive under the same name could.
#[inline]
pub(crate) fn served(number: u8) -> Result<(), Refusal> {
    told(number, 0)
}

/// The answer of a walk taken apart: how many offsets are listed, or what broke and where.
///
/// # Panics
///
/// As [`served`] does.
#[inline]
pub(crate) fn walked(answer: raw::Walked) -> Result<usize, Refusal> {
    told(answer.number, answer.place).map(|()| answer.count)
}

#[inline]
fn told(number: u8, place: Offset) -> Result<(), Refusal> {
    if number == 0 {
        return Ok(());
    }
    match refusal(number, place) {
        Some(refusal) => Err(refusal),
        None => panic!("libthawribbon.a answered {number}, which is no answer number"),
    }
}

#[cfg(test)]
mod tests {
    use super::{Refusal, refusal, served, walked};
    use crate::raw::Walked;

    const NUMBERS: [u8; 14] = [1, 2, 3, 4, 5, 6, 8, 9, 10, 11, 12, 13, 14, 18];

    #[test]
    fn each_number_has_its_refusal() {
        assert_eq!(served(0), Ok(()));
        for number in NUMBERS {
            assert_eq!(served(number).map_err(Refusal::number), Err(number));
        }
        for number in (0..=u8::MAX).filter(|number| !NUMBERS.contains(number)) {
            assert_eq!(refusal(number, 0), None);
        }
    }

    #[test]
    #[should_panic(expected = "answered 15")]
    fn a_number_that_is_no_answer_is_no_refusal() {
        let _ = served(15);
    }

    #[test]
    #[should_panic(expected = "answered 7")]
    fn seven_is_given_no_more() {
        let _ = served(7);
    }

    #[test]
    fn a_walk_tells_its_count_or_its_place() {
        let answer = |number, count, place| walked(Walked { count, number, place });
        assert_eq!(answer(0, 3, 0), Ok(3));
        assert_eq!(answer(2, 0, 0), Err(Refusal::NoRoom));
        assert_eq!(answer(11, 0, 0), Err(Refusal::BelowFloor { place: None }));
        assert_eq!(answer(11, 0, 0x1C0), Err(Refusal::BelowFloor { place: Some(0x1C0) }));
        assert_eq!(answer(12, 0, 0x1C0), Err(Refusal::ComesBack { place: 0x1C0 }));
    }

    #[test]
    fn each_refusal_says_its_number_and_why() {
        let mut said = Vec::new();
        for number in NUMBERS {
            for place in [0, 0x008, 0x1C0] {
                let refusal = refusal(number, place).expect("a refusal");
                let text = refusal.to_string();
                assert!(text.starts_with(&format!("refused with {number}: ")), "{text}");
                assert_eq!(
                    said.contains(&text),
                    ![11, 12].contains(&number) && place != 0,
                    "{text}"
                );
                said.push(text);
            }
        }
    }

    #[test]
    fn a_broken_list_says_where() {
        let says = |refusal: Refusal| refusal.to_string();
        assert!(says(Refusal::BelowFloor { place: None }).ends_with(" below its floor: the list's start itself"));
        assert!(says(Refusal::BelowFloor { place: Some(0x008) }).ends_with(", in the structure at 008h"));
        assert!(says(Refusal::ComesBack { place: 0xFFC }).ends_with(" in the chain, in the structure at FFCh"));
    }

    #[test]
    fn a_refusal_is_written_as_it_stands_in_a_program() {
        let says = |refusal: Refusal| format!("{refusal:?}");
        assert_eq!(says(Refusal::NotOneFunction), "NotOneFunction");
        assert_eq!(says(Refusal::WrongGroups), "WrongGroups");
        assert_eq!(says(Refusal::BelowFloor { place: None }), "BelowFloor { place: None }");
        assert_eq!(
            says(Refusal::BelowFloor { place: Some(0x008) }),
            "BelowFloor { place: Some(0x008) }"
        );
        assert_eq!(says(Refusal::ComesBack { place: 0xFFC }), "ComesBack { place: 0xFFC }");
    }

    #[test]
    fn a_refusal_is_an_error() {
        let error: Box<dyn std::error::Error + Send + Sync> = Refusal::ShortPacket.into();
        assert_eq!(
            error.to_string(),
            "refused with 3: the packet or the completion has fewer than 12 bytes"
        );
    }
}
