//! A board: its description, what it has captured, its two spaces with their rules and marks, and its answers to packets.

use crate::Offset;
use crate::completion::Completion;
use crate::constants::REPLY;
use crate::edition::Edition;
use crate::not_done::NotDone;
use crate::raw;
use crate::refusal::served;
use std::fmt;

/// What stays while a board runs.
///
/// Any values may be given; [`Board::serve`] refuses those outside their range. There is no default: all four are said.
#[derive(Clone, Copy, Debug, PartialEq, Eq, Hash)]
pub struct Description {
    /// The board's function number, 0 to 7.
    pub function: u8,
    /// A, the ordinary place of the Device Correlation word: a multiple of 4 from 104h to FFCh.
    pub a: Offset,
    /// B, its trusted place: a multiple of 4 from 00Ch to FFCh.
    pub b: Offset,
    /// The edition of byte 0: whether its bit 7 is ignored, or refused where it is set.
    pub edition: Edition,
}

/// The captured bus and device number. A board that has captured none has `None` in its place.
#[derive(Clone, Copy, Debug, PartialEq, Eq, Hash)]
pub struct Capture {
    /// The bus number.
    pub bus: u8,
    /// The device number, 0 to 31.
    pub device: u8,
}

/// A space of a board with its rules and its marks, all lent.
///
/// They are tested by [`Board::serve`] and [`Pair::serve`](crate::Pair::serve). Rules and marks are only read, so any number
/// of spaces may have the same ones.
pub struct Space<'a> {
    /// The space, 4,096 bytes.
    pub bytes: &'a mut [u8],
    /// Its rules, 4,096 bytes: a bit that is 1 marks a bit that can be written.
    pub rules: &'a [u8],
    /// Its marks, 4,096 bytes: a bit that is 1 marks a bit that is cleared by writing 1, such as an error status bit. No bit
    /// may be marked here and in the rules. [`NO_MARKS`](crate::NO_MARKS) where there is none.
    pub marks: &'a [u8],
}

/// How long they are, and not what they hold: a board has 24 KiB.
impl fmt::Debug for Space<'_> {
    fn fmt(&self, formatter: &mut fmt::Formatter<'_>) -> fmt::Result {
        formatter
            .debug_struct("Space")
            .field("bytes", &format_args!("{} bytes", self.bytes.len()))
            .field("rules", &format_args!("{} bytes", self.rules.len()))
            .field("marks", &format_args!("{} bytes", self.marks.len()))
            .finish()
    }
}

/// A board over lent buffers. It stays between packets, so that what one packet captures is there for the next. A board of two
/// functions is a [`Pair`](crate::Pair).
///
/// Every field may be read and set between packets.
#[derive(Debug)]
pub struct Board<'a> {
    /// What stays while the board runs.
    pub description: Description,
    /// What the board has captured.
    pub capture: Option<Capture>,
    /// The ordinary space.
    pub ordinary: Space<'a>,
    /// The trusted space.
    pub trusted: Space<'a>,
}

impl<'a> Board<'a> {
    /// A fresh board: it has captured none. The spaces are taken as they are.
    ///
    /// ```
    /// use thawribbon::{Board, Description, Edition, NO_MARKS, SPACE, Space};
    ///
    /// let (mut ordinary, mut trusted, rules) = ([0; SPACE], [0; SPACE], [0xFF; SPACE]);
    /// let board = Board::fresh(
    ///     Description { function: 0, a: 0x104, b: 0x00C, edition: Edition::One },
    ///     Space { bytes: &mut ordinary, rules: &rules, marks: &NO_MARKS },
    ///     Space { bytes: &mut trusted, rules: &rules, marks: &NO_MARKS },
    /// );
    /// assert_eq!(board.capture, None);
    /// ```
    #[must_use]
    pub fn fresh(description: Description, ordinary: Space<'a>, trusted: Space<'a>) -> Self {
        Board {
            description,
            capture: None,
            ordinary,
            trusted,
        }
    }

    /// Answers a packet: does the access, and gives the completion.
    ///
    /// `Ok` means that the access was done, and `?` stops at a write that was not. Done is not landed: a write has
    /// changed what its enables, the rules and the marks let it change, which may be nothing. A read tells: it gives all four
    /// bytes of its word, whatever it enables, and at A the four trusted bytes at B.
    ///
    /// ```
    /// use thawribbon::{Board, Capture, Description, Edition, Id, NO_MARKS, NotDone, Refusal, SPACE, Space, Status};
    ///
    /// let (mut ordinary, mut trusted, rules) = ([0x51; SPACE], [0x72; SPACE], [0xFF; SPACE]);
    /// let mut board = Board::fresh(
    ///     Description { function: 0, a: 0x104, b: 0x00C, edition: Edition::One },
    ///     Space { bytes: &mut ordinary, rules: &rules, marks: &NO_MARKS },
    ///     Space { bytes: &mut trusted, rules: &rules, marks: &NO_MARKS },
    /// );
    ///
    /// // A write of the two lowest bytes at FFCh, for bus 0, device 31, function 0; asked by 01:00.0, with tag 7.
    /// let write = [0x44, 0x00, 0x00, 0x01, 0x01, 0x00, 0x07, 0x03, 0x00, 0xF8, 0x0F, 0xFC, 1, 2, 3, 4];
    /// let completion = board.serve(&write)?;
    /// assert_eq!(board.ordinary.bytes[0xFFC..], [1, 2, 0x51, 0x51]);
    /// assert_eq!(board.capture, Some(Capture { bus: 0, device: 31 }));
    /// assert_eq!(completion.completer(), Id { bus: 0, device: 31, function: 0 });
    /// assert_eq!((completion.requester().to_string(), completion.tag()), ("01:00.0".to_string(), 7));
    ///
    /// // The same for function 1, which this board is not: the completion says so, and nothing has changed.
    /// let mut other = write;
    /// other[9] = 0xF9;
    /// let Err(NotDone::Unsupported(completion)) = board.serve(&other) else { panic!("it was done") };
    /// assert_eq!((completion.status(), completion.data()), (Status::Unsupported, None));
    ///
    /// // The packet lost its last byte on the way: it is refused, and nothing has changed.
    /// assert_eq!(board.serve(&write[..15]), Err(NotDone::Refused(Refusal::WrongLength)));
    /// # Ok::<(), NotDone>(())
    /// ```
    ///
    /// A program that stands on the bus sends a completion back in both cases that have one. It drops a packet that is
    /// refused, and ends at [`Refusal::BadDescription`], for such a board answers nothing:
    ///
    /// ```
    /// use thawribbon::{Board, Completion, NotDone, Refusal};
    ///
    /// fn to_send_back(board: &mut Board, packet: &[u8]) -> Result<Completion, Refusal> {
    ///     match board.serve(packet) {
    ///         Ok(completion) | Err(NotDone::Unsupported(completion)) => Ok(completion),
    ///         Err(NotDone::Refused(refusal)) => Err(refusal),
    ///     }
    /// }
    /// ```
    ///
    /// The compiler warns of an answer that nobody looks at. The completion has bytes of its own; [`raw::serve`] writes
    /// into a reply that is lent.
    ///
    /// # Errors
    ///
    /// [`NotDone::Unsupported`]: the answer is Unsupported Request, and nothing has changed. It is given to these five:
    ///
    /// - a Type 1 request
    /// - a Type 0 request for another function
    /// - a trusted request while nothing is captured
    /// - a trusted request that does not name the captured bus and device and the board's own function
    /// - a poisoned write
    ///
    /// [`NotDone::Refused`], with the lowest of these that applies; nothing has changed.
    ///
    /// - [`Refusal::BadDescription`]: a space, its rules or its marks aren't 4,096 bytes, a bit is 1 in the rules and in
    ///   the marks of a space, the captured device is over 31, the function number is over 7, or A or B is outside its
    ///   range.
    /// - [`Refusal::ShortPacket`]: the packet has fewer than 12 bytes, whatever its byte 0 is.
    /// - [`Refusal::UnknownType`]: the type code isn't one of the six, or the board is of [`Edition::Two`] and bit 7 of byte
    ///   0 is set.
    /// - [`Refusal::WrongLength`]: the packet isn't 12 bytes, plus 4 for a write, plus 4 if the digest bit is set.
    /// - [`Refusal::WrongField`]: TC, Attr or the last enables aren't 0, or Length isn't 1.
    ///
    /// [`Refusal::BadDescription`]: crate::Refusal::BadDescription
    /// [`Refusal::ShortPacket`]: crate::Refusal::ShortPacket
    /// [`Refusal::UnknownType`]: crate::Refusal::UnknownType
    /// [`Refusal::WrongLength`]: crate::Refusal::WrongLength
    /// [`Refusal::WrongField`]: crate::Refusal::WrongField
    #[inline]
    pub fn serve(&mut self, packet: &[u8]) -> Result<Completion, NotDone> {
        let mut reply = [0; REPLY];
        let answer = raw::serve(
            described(self.description),
            linked(self.capture),
            self.ordinary.bytes,
            self.ordinary.rules,
            self.ordinary.marks,
            self.trusted.bytes,
            self.trusted.rules,
            self.trusted.marks,
            packet,
            &mut reply,
        );
        served(answer.number)?;
        self.capture = kept(answer.capture);
        Completion::written(reply, answer.length).done()
    }

    /// Resets the board: forgets the capture, and changes no byte.
    ///
    /// ```
    /// use thawribbon::{Board, Capture, Description, Edition, NO_MARKS, SPACE, Space};
    ///
    /// let (mut ordinary, mut trusted, rules) = ([0; SPACE], [0; SPACE], [0xFF; SPACE]);
    /// let mut board = Board::fresh(
    ///     Description { function: 0, a: 0x104, b: 0x00C, edition: Edition::One },
    ///     Space { bytes: &mut ordinary, rules: &rules, marks: &NO_MARKS },
    ///     Space { bytes: &mut trusted, rules: &rules, marks: &NO_MARKS },
    /// );
    /// board.capture = Some(Capture { bus: 0x05, device: 3 });
    /// board.reset();
    /// assert_eq!(board.capture, None);
    /// ```
    #[inline]
    pub fn reset(&mut self) {
        self.capture = kept(raw::reset(linked(self.capture)));
    }
}

/// A description as the linked functions take it.
#[inline]
fn described(description: Description) -> raw::Description {
    raw::Description {
        function: description.function,
        a: description.a.into(),
        b: description.b.into(),
        edition: description.edition.number(),
    }
}

/// A capture as the linked functions take it.
#[inline]
pub(crate) fn linked(capture: Option<Capture>) -> raw::Capture {
    match capture {
        None => raw::Capture {
            captured: 0,
            bus: 0,
            device: 0,
        },
        Some(Capture { bus, device }) => raw::Capture {
            captured: 1,
            bus,
            device,
        },
    }
}

/// A capture as the linked functions give it.
#[inline]
pub(crate) fn kept(capture: raw::Capture) -> Option<Capture> {
    (capture.captured != 0).then_some(Capture {
        bus: capture.bus,
        device: capture.device,
    })
}
