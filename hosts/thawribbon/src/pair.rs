//! A board of two functions behind one device, the primary and the alternate, and its answers to packets.

use crate::Offset;
use crate::board::{Capture, Space, kept, linked};
use crate::completion::Completion;
use crate::constants::REPLY;
use crate::edition::Edition;
use crate::not_done::NotDone;
use crate::not_named::NotNamed;
use crate::raw;
use crate::records::{Alternate, dual_bdf};
use crate::refusal::served;

/// What stays of one of two functions while their board runs. The [`Edition`] is the board's.
///
/// Any values may be given; [`Pair::serve`] refuses those outside their range, and a number that both functions have. There
/// is no default: all three are said.
#[derive(Clone, Copy, Debug, PartialEq, Eq, Hash)]
pub struct Function {
    /// The function number, 0 to 7.
    pub function: u8,
    /// A, the ordinary place of its Device Correlation word: a multiple of 4 from 104h to FFCh.
    pub a: Offset,
    /// B, its trusted place: a multiple of 4 from 00Ch to FFCh.
    pub b: Offset,
}

/// One of the two functions of a [`Pair`], over lent buffers: what stays of it, what it has captured, and its two spaces.
///
/// Every field may be read and set between packets.
#[derive(Debug)]
pub struct Side<'a> {
    /// What stays while the board runs.
    pub description: Function,
    /// What the function has captured, for itself.
    pub capture: Option<Capture>,
    /// Its ordinary space.
    pub ordinary: Space<'a>,
    /// Its trusted space.
    pub trusted: Space<'a>,
}

impl<'a> Side<'a> {
    /// A function that has captured none. The spaces are taken as they are. [`Pair`] has an example.
    #[must_use]
    pub fn fresh(description: Function, ordinary: Space<'a>, trusted: Space<'a>) -> Self {
        Side {
            description,
            capture: None,
            ordinary,
            trusted,
        }
    }
}

/// A board of two functions with different numbers behind one device, as in Dual-BDF. It stays between packets, so that what
/// one packet has a function capture is there for the next.
///
/// Each function has spaces, rules, marks, places and a capture of its own, and both have one edition. A packet goes to the
/// function that it names. While both are well described, nothing that is sent to one of them shows at the other. Every field
/// may be read and set between packets.
///
/// ```
/// use thawribbon::{Capture, Edition, Function, Id, NO_MARKS, NotDone, Pair, SPACE, Side, Space};
///
/// let (mut ordinary, mut trusted, rules) = ([[0; SPACE]; 2], [[0; SPACE]; 2], [0xFF; SPACE]);
/// let ([ordinary_0, ordinary_1], [trusted_0, trusted_1]) = (&mut ordinary, &mut trusted);
/// let mut pair = Pair {
///     edition: Edition::One,
///     primary: Side::fresh(
///         Function { function: 0, a: 0x104, b: 0x00C },
///         Space { bytes: ordinary_0, rules: &rules, marks: &NO_MARKS },
///         Space { bytes: trusted_0, rules: &rules, marks: &NO_MARKS },
///     ),
///     alternate: Side::fresh(
///         Function { function: 1, a: 0x104, b: 0x00C },
///         Space { bytes: ordinary_1, rules: &rules, marks: &NO_MARKS },
///         Space { bytes: trusted_1, rules: &rules, marks: &NO_MARKS },
///     ),
/// };
///
/// // A write for bus 5, device 3, function 1: the alternate does it, and captures. The primary does not.
/// let write = [0x44, 0x00, 0x00, 0x01, 0x01, 0x00, 0x07, 0x0F, 0x05, 0x19, 0x00, 0x10, 1, 2, 3, 4];
/// assert_eq!(pair.serve(&write)?.completer(), Id { bus: 5, device: 3, function: 1 });
/// assert_eq!(pair.alternate.ordinary.bytes[0x010..0x014], [1, 2, 3, 4]);
/// assert_eq!((pair.primary.capture, pair.alternate.capture), (None, Some(Capture { bus: 5, device: 3 })));
/// # Ok::<(), NotDone>(())
/// ```
#[derive(Debug)]
pub struct Pair<'a> {
    /// The edition of byte 0, for both functions.
    pub edition: Edition,
    /// The primary, which also answers what names neither function.
    pub primary: Side<'a>,
    /// The alternate.
    pub alternate: Side<'a>,
}

impl Pair<'_> {
    /// Answers a packet: the function that it names in byte 9 does the access, as a [`Board`](crate::Board) with that
    /// function alone does it, and the other stays as it is.
    ///
    /// `Ok` means that the access was done, and `?` stops at a write that was not. As at a board, done is not landed. The
    /// completion's [`completer`](Completion::completer) tells who answers.
    ///
    /// ```
    /// use thawribbon::{Edition, Function, NO_MARKS, NotDone, Pair, Refusal, SPACE, Side, Space};
    /// # let (mut ordinary, mut trusted, rules) = ([[0; SPACE]; 2], [[0x72; SPACE]; 2], [0xFF; SPACE]);
    /// # let ([ordinary_0, ordinary_1], [trusted_0, trusted_1]) = (&mut ordinary, &mut trusted);
    /// # let mut pair = Pair {
    /// #     edition: Edition::One,
    /// #     primary: Side::fresh(
    /// #         Function { function: 0, a: 0x104, b: 0x00C },
    /// #         Space { bytes: ordinary_0, rules: &rules, marks: &NO_MARKS },
    /// #         Space { bytes: trusted_0, rules: &rules, marks: &NO_MARKS },
    /// #     ),
    /// #     alternate: Side::fresh(
    /// #         Function { function: 1, a: 0x104, b: 0x00C },
    /// #         Space { bytes: ordinary_1, rules: &rules, marks: &NO_MARKS },
    /// #         Space { bytes: trusted_1, rules: &rules, marks: &NO_MARKS },
    /// #     ),
    /// # };
    /// // The pair has functions 0 and 1, and neither has captured. Function 0 is told bus 5 and device 3.
    /// pair.serve(&[0x44, 0, 0, 1, 1, 0, 6, 0x0, 0x05, 0x18, 0, 0x10, 0, 0, 0, 0])?;
    ///
    /// // A trusted read of each: function 0 does it. Function 1 has captured nothing, whatever the other has.
    /// let trusted_read = |byte_9| [0x1B, 0, 0, 1, 1, 0, 8, 0x0F, 0x05, byte_9, 0, 0x10];
    /// assert_eq!(pair.serve(&trusted_read(0x18))?.data(), Some([0x72; 4]));
    /// let Err(NotDone::Unsupported(completion)) = pair.serve(&trusted_read(0x19)) else { panic!("it was done") };
    /// assert_eq!(completion.completer().to_string(), "00:00.1");
    ///
    /// // Function 2 is neither: the primary answers.
    /// let Err(NotDone::Unsupported(completion)) = pair.serve(&trusted_read(0x1A)) else { panic!("it was done") };
    /// assert_eq!(completion.completer().to_string(), "05:03.0");
    ///
    /// // One number for both: nothing is answered any more.
    /// pair.alternate.description.function = 0;
    /// assert_eq!(pair.serve(&trusted_read(0x18)), Err(NotDone::Refused(Refusal::BadDescription)));
    /// # Ok::<(), NotDone>(())
    /// ```
    ///
    /// # Errors
    ///
    /// [`NotDone::Unsupported`]: the answer is Unsupported Request, and nothing has changed. The function that is named gives
    /// it, with its own completer ID, to what [`Board::serve`](crate::Board::serve) gives it to. The primary gives it, with
    /// its own, to a Type 1 request, whatever that names, and to a request that names neither function.
    ///
    /// [`NotDone::Refused`], with the lowest of these that applies; nothing has changed in either function.
    ///
    /// - [`Refusal::BadDescription`]: both functions have one number, or either, also the one that is not named, is such as
    ///   [`Board::serve`](crate::Board::serve) refuses with it.
    /// - [`Refusal::ShortPacket`], [`Refusal::UnknownType`], [`Refusal::WrongLength`], [`Refusal::WrongField`]: as at
    ///   [`Board::serve`](crate::Board::serve), whatever the packet names.
    ///
    /// [`Refusal::BadDescription`]: crate::Refusal::BadDescription
    /// [`Refusal::ShortPacket`]: crate::Refusal::ShortPacket
    /// [`Refusal::UnknownType`]: crate::Refusal::UnknownType
    /// [`Refusal::WrongLength`]: crate::Refusal::WrongLength
    /// [`Refusal::WrongField`]: crate::Refusal::WrongField
    #[inline]
    pub fn serve(&mut self, packet: &[u8]) -> Result<Completion, NotDone> {
        let mut reply = [0; REPLY];
        let captures = self.captures();
        let (primary, alternate) = (&mut self.primary, &mut self.alternate);
        let answer = raw::serve_pair(
            self.edition.number(),
            described(primary.description),
            described(alternate.description),
            captures,
            primary.ordinary.bytes,
            primary.ordinary.rules,
            primary.ordinary.marks,
            primary.trusted.bytes,
            primary.trusted.rules,
            primary.trusted.marks,
            alternate.ordinary.bytes,
            alternate.ordinary.rules,
            alternate.ordinary.marks,
            alternate.trusted.bytes,
            alternate.trusted.rules,
            alternate.trusted.marks,
            packet,
            &mut reply,
        );
        served(answer.number)?;
        self.keep(answer.kept);
        Completion::written(reply, answer.length).done()
    }

    /// Resets the board: both functions forget what they have captured, and no byte changes.
    ///
    /// ```
    /// use thawribbon::{Capture, Edition, Function, NO_MARKS, Pair, SPACE, Side, Space};
    /// # let (mut ordinary, mut trusted, rules) = ([[0; SPACE]; 2], [[0; SPACE]; 2], [0xFF; SPACE]);
    /// # let ([ordinary_0, ordinary_1], [trusted_0, trusted_1]) = (&mut ordinary, &mut trusted);
    /// # let mut pair = Pair {
    /// #     edition: Edition::One,
    /// #     primary: Side::fresh(
    /// #         Function { function: 0, a: 0x104, b: 0x00C },
    /// #         Space { bytes: ordinary_0, rules: &rules, marks: &NO_MARKS },
    /// #         Space { bytes: trusted_0, rules: &rules, marks: &NO_MARKS },
    /// #     ),
    /// #     alternate: Side::fresh(
    /// #         Function { function: 1, a: 0x104, b: 0x00C },
    /// #         Space { bytes: ordinary_1, rules: &rules, marks: &NO_MARKS },
    /// #         Space { bytes: trusted_1, rules: &rules, marks: &NO_MARKS },
    /// #     ),
    /// # };
    /// pair.primary.capture = Some(Capture { bus: 0x05, device: 3 });
    /// pair.alternate.capture = Some(Capture { bus: 0x05, device: 3 });
    /// pair.reset();
    /// assert_eq!((pair.primary.capture, pair.alternate.capture), (None, None));
    /// ```
    #[inline]
    pub fn reset(&mut self) {
        self.keep(raw::reset_pair(self.captures()));
    }

    /// Reads the Dual-BDF record at an offset of the primary's ordinary space, by [`dual_bdf`], and says whether it names the
    /// alternate of this board.
    ///
    /// `Ok` means that it does: it has the alternate's function, and the device of whatever the two functions have captured.
    /// The device of a record is that of both, and a board knows its device only by what it has captured.
    ///
    /// ```
    /// use thawribbon::{Alternate, Capture, Edition, Function, NO_MARKS, NotNamed, Pair, SPACE, Side, Space};
    /// # let (mut ordinary, mut trusted, rules) = ([[0; SPACE]; 2], [[0; SPACE]; 2], [0xFF; SPACE]);
    /// # let ([ordinary_0, ordinary_1], [trusted_0, trusted_1]) = (&mut ordinary, &mut trusted);
    /// # let mut pair = Pair {
    /// #     edition: Edition::One,
    /// #     primary: Side::fresh(
    /// #         Function { function: 0, a: 0x104, b: 0x00C },
    /// #         Space { bytes: ordinary_0, rules: &rules, marks: &NO_MARKS },
    /// #         Space { bytes: trusted_0, rules: &rules, marks: &NO_MARKS },
    /// #     ),
    /// #     alternate: Side::fresh(
    /// #         Function { function: 1, a: 0x104, b: 0x00C },
    /// #         Space { bytes: ordinary_1, rules: &rules, marks: &NO_MARKS },
    /// #         Space { bytes: trusted_1, rules: &rules, marks: &NO_MARKS },
    /// #     ),
    /// # };
    /// // The pair has functions 0 and 1. P9's record has function 1 and device 3.
    /// let record = [0x09, 0x00, 0x0C, 0x00, 0xC0, 0x1E, 0xC0, 0x00, 0x02, 0x00, 0x02, 0x03];
    /// pair.primary.ordinary.bytes[0x040..0x04C].copy_from_slice(&record);
    /// let alternate = Alternate { function: 1, device: 3 };
    ///
    /// // Nothing is captured, so nothing says which device this board is.
    /// assert_eq!(pair.dual_bdf(0x040), Err(NotNamed::Uncaptured(alternate)));
    /// pair.primary.capture = Some(Capture { bus: 5, device: 3 });
    /// assert_eq!(pair.dual_bdf(0x040)?, alternate);
    /// pair.alternate.capture = Some(Capture { bus: 5, device: 4 });
    /// assert_eq!(pair.dual_bdf(0x040), Err(NotNamed::Other(alternate)));
    /// # Ok::<(), NotNamed>(())
    /// ```
    ///
    /// # Errors
    ///
    /// - [`NotNamed::Refused`]: there is no such record; the refusals are those of [`dual_bdf`].
    /// - [`NotNamed::Other`]: it has another function, or another device than one of the two functions has captured.
    /// - [`NotNamed::Uncaptured`]: it has the alternate's function, and neither function has captured a device.
    ///
    /// Whether the pair is well described is not looked at: with one number twice the record's function is the primary's too,
    /// and serving answers 1.
    pub fn dual_bdf(&self, at: Offset) -> Result<Alternate, NotNamed> {
        let record = dual_bdf(self.primary.ordinary.bytes, at)?;
        let captured = [self.primary.capture, self.alternate.capture];
        let mut devices = captured.into_iter().flatten().map(|capture| capture.device);
        if record.function != self.alternate.description.function || devices.any(|device| device != record.device) {
            return Err(NotNamed::Other(record));
        }
        if captured == [None; 2] {
            return Err(NotNamed::Uncaptured(record));
        }
        Ok(record)
    }

    /// What both have captured, as the linked functions take it.
    #[inline]
    fn captures(&self) -> raw::Captures {
        raw::Captures {
            primary: linked(self.primary.capture),
            alternate: linked(self.alternate.capture),
        }
    }

    /// Keeps what both have captured, as the linked functions give it.
    #[inline]
    fn keep(&mut self, captures: raw::Captures) {
        self.primary.capture = kept(captures.primary);
        self.alternate.capture = kept(captures.alternate);
    }
}

/// A function as the linked functions take it.
#[inline]
fn described(function: Function) -> raw::Function {
    raw::Function {
        function: function.function,
        a: function.a.into(),
        b: function.b.into(),
    }
}
