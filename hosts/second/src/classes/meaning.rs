//! What the completion of a circle has to mean. Request 5/13 wants what is written to read back as the same request, and
//! what the board replies as the same completion. So what is heard is held against the parts that were asked with and
//! against the board before and after, without a look at the packet or the reply.

use thawribbon::raw::{Description, Heard, Parts};

use crate::generate::is_write;

/// A circle: what was asked of which board, what was heard, and the spaces before and after.
pub struct CircleView<'call> {
    pub parts: Parts,
    pub description: Description,
    /// What was captured before and after.
    pub capture: Option<(u8, u8)>,
    pub captured_then: Option<(u8, u8)>,
    pub heard: Heard,
    pub ordinary: [&'call [u8]; 2],
    pub ordinary_rules: &'call [u8],
    pub ordinary_marks: &'call [u8],
    pub trusted: [&'call [u8]; 2],
    pub trusted_rules: &'call [u8],
    pub trusted_marks: &'call [u8],
}

impl CircleView<'_> {
    pub fn is_trusted(&self) -> bool {
        matches!(self.parts.kind, 0x1B | 0x5B)
    }

    pub fn is_at_a(&self) -> bool {
        !self.is_trusted() && self.parts.offset == self.description.a
    }

    /// Whether no byte of either space changed.
    fn nothing_changed(&self) -> bool {
        self.ordinary[0] == self.ordinary[1] && self.trusted[0] == self.trusted[1]
    }

    /// The bytes, before and after, that a request at this place is about, their rules and their marks.
    pub fn bytes(&self) -> [[u8; 4]; 4] {
        let spaces = if self.is_trusted() {
            [self.trusted[0], self.trusted[1], self.trusted_rules, self.trusted_marks]
        } else {
            [
                self.ordinary[0],
                self.ordinary[1],
                self.ordinary_rules,
                self.ordinary_marks,
            ]
        };
        spaces.map(|space| four_bytes(space, self.parts.offset))
    }

    /// Whether an enabled one of a write at A stands where a marked bit is 1, of the bytes stored there or of those at
    /// B.
    pub fn meets_marks_at_a(&self) -> bool {
        let at_b = [self.trusted[0], self.trusted_marks].map(|space| four_bytes(space, self.description.b));
        let [stored, _, _, marks] = self.bytes();
        [[stored, marks], at_b].iter().any(|[bytes, marks]| {
            (0..4).any(|place| {
                let enabled = self.parts.enables >> place & 1 == 1;
                enabled && bytes[place] & marks[place] & self.parts.data[place] != 0
            })
        })
    }
}

/// The four bytes at an offset.
fn four_bytes(space: &[u8], offset: u32) -> [u8; 4] {
    let at = offset as usize;
    [space[at], space[at + 1], space[at + 2], space[at + 3]]
}

/// Whether what was heard answers what was asked: the requester and the tag are those of the request, and the completer
/// is the board, by what it has captured then.
pub fn is_answer(view: &CircleView<'_>) -> bool {
    let heard = &view.heard;
    let (bus, device) = view.captured_then.unwrap_or((0, 0));
    heard.number == 0
        && (heard.requester, heard.tag) == (view.parts.requester, view.parts.tag)
        && heard.completer == [bus, 8 * device + view.description.function]
}

/// Whether what was heard is what became of the request. UR: nothing changed. Success with data: nothing changed, and
/// the data are all four bytes of what the space shows, whatever was enabled. Success without: the enabled bits that
/// may be written are as the data, the enabled marked bits are 0 where the data have 1, and nothing else changed; at A
/// nothing did.
pub fn is_done(view: &CircleView<'_>, unsupported: bool) -> bool {
    let target = Some((view.parts.bus, view.parts.device));
    let captured = if !unsupported && view.parts.kind == 0x44 {
        target
    } else {
        view.capture
    };
    let done = match (unsupported, is_write(view.parts.kind)) {
        (true, _) => view.heard.said == 3 && view.nothing_changed(),
        (false, false) => view.heard.said == 1 && view.nothing_changed() && view.heard.data == shown(view),
        (false, true) => view.heard.said == 2 && has_landed(view),
    };
    let without_data = view.heard.said == 1 || view.heard.data == [0; 4];
    done && without_data && view.captured_then == captured
}

/// What the space shows at the place that was asked for: all four bytes, and at A those of the trusted space at B.
pub fn shown(view: &CircleView<'_>) -> [u8; 4] {
    if view.is_at_a() {
        return four_bytes(view.trusted[0], view.description.b);
    }
    let [bytes, ..] = view.bytes();
    bytes
}

/// Whether a write has landed, and nothing else.
fn has_landed(view: &CircleView<'_>) -> bool {
    if view.is_at_a() {
        return view.nothing_changed();
    }
    let at = view.parts.offset as usize;
    let (changed, other) = if view.is_trusted() {
        (view.trusted, view.ordinary)
    } else {
        (view.ordinary, view.trusted)
    };
    let [before, after] = changed;
    let [old, new, rules, marks] = view.bytes();
    let as_due = (0..4).all(|place| {
        if view.parts.enables >> place & 1 == 0 {
            return new[place] == old[place];
        }
        let (open, data) = (rules[place], view.parts.data[place]);
        let cleared = marks[place] & data;
        let others = !(open | cleared);
        new[place] & open == data & open && new[place] & cleared == 0 && new[place] & others == old[place] & others
    });
    as_due && before[..at] == after[..at] && before[at + 4..] == after[at + 4..] && other[0] == other[1]
}

#[cfg(test)]
mod tests {
    use super::{CircleView, Description, Heard, Parts, is_answer, is_done};

    const BEFORE: [u8; 16] = [0x3C; 16];
    const RULES: [u8; 16] = [0xF0; 16];
    const MARKS: [u8; 16] = [0x06; 16];
    const TRUSTED: [u8; 16] = [0x99; 16];
    const DATA: [u8; 4] = [0xAA, 0xBB, 0xCC, 0xDD];

    /// What the space has at 004h when the write has landed: of each enabled byte, bits 7:4 are as the data, bits 2:1 are
    /// 0 where these have 1, and the others are as they were.
    const LANDED: [u8; 4] = [0x3C, 0xBC, 0xC8, 0xD8];

    /// An ordinary write at 004h, of all bytes but the first, to a board with function 1; A is 008h and B is 00Ch. Here
    /// the space is as it was, so that nothing has landed yet.
    fn asked<'call>(kind: u8, said: u8, ordinary: &'call [u8], trusted: &'call [u8]) -> CircleView<'call> {
        let parts = Parts {
            offset: 0x004,
            kind,
            requester: [1, 2],
            tag: 3,
            bus: 5,
            device: 6,
            function: 1,
            enables: 0x0E,
            data: DATA,
        };
        let heard = Heard {
            number: 0,
            said,
            completer: [5, 0x31],
            requester: [1, 2],
            tag: 3,
            data: [0; 4],
        };
        CircleView {
            parts,
            description: Description {
                function: 1,
                a: 0x008,
                b: 0x00C,
                edition: 1,
            },
            capture: Some((5, 6)),
            captured_then: Some((5, 6)),
            heard,
            ordinary: [&BEFORE, ordinary],
            ordinary_rules: &RULES,
            ordinary_marks: &MARKS,
            trusted: [&TRUSTED, trusted],
            trusted_rules: &RULES,
            trusted_marks: &MARKS,
        }
    }

    /// The space with other bytes at an offset.
    fn with<const N: usize>(space: [u8; 16], at: usize, bytes: [u8; N]) -> [u8; 16] {
        let mut space = space;
        space[at..at + N].copy_from_slice(&bytes);
        space
    }

    #[test]
    fn a_write_has_landed_where_it_may_and_nowhere_else() {
        let landed = with(BEFORE, 0x004, LANDED);
        assert!(is_done(&asked(0x44, 2, &landed, &TRUSTED), false));
        assert!(!is_done(&asked(0x44, 3, &landed, &TRUSTED), false));
        assert!(!is_done(&asked(0x44, 2, &BEFORE, &TRUSTED), false));
        for wrong in [
            with(BEFORE, 0x004, [0xAC, 0xBC, 0xC8, 0xD8]),
            with(BEFORE, 0x004, DATA),
            with(landed, 0x004, [0x38]),
            with(landed, 0x005, [0xB8]),
            with(landed, 0x005, [0xBE]),
            with(landed, 0x006, [0xCC]),
            with(landed, 0x007, [0xD0]),
            with(landed, 0x003, [0x3D]),
            with(landed, 0x008, [0x3D]),
            with(BEFORE, 0x008, LANDED),
        ] {
            assert!(!is_done(&asked(0x44, 2, &wrong, &TRUSTED), false));
        }
        let elsewhere = with(TRUSTED, 0x004, LANDED);
        assert!(!is_done(&asked(0x44, 2, &landed, &elsewhere), false));
        assert!(!is_done(&asked(0x44, 2, &BEFORE, &elsewhere), false));
    }

    #[test]
    fn a_write_at_a_changes_nothing_and_every_ordinary_one_captures() {
        let at_a = |ordinary| {
            let mut view = asked(0x44, 2, ordinary, &TRUSTED);
            view.parts.offset = 0x008;
            is_done(&view, false)
        };
        assert!(at_a(&BEFORE));
        assert!(!at_a(&with(BEFORE, 0x008, LANDED)));
        let landed = with(BEFORE, 0x004, LANDED);
        for captured_then in [None, Some((5, 7)), Some((4, 6))] {
            let mut view = asked(0x44, 2, &landed, &TRUSTED);
            view.captured_then = captured_then;
            assert!(!is_done(&view, false));
        }
    }

    #[test]
    fn a_read_shows_what_is_there_and_changes_nothing() {
        for enables in 0..16 {
            let read = |offset, ordinary, data| {
                let mut view = asked(0x04, 1, ordinary, &TRUSTED);
                (view.parts.enables, view.parts.offset, view.heard.data) = (enables, offset, data);
                is_done(&view, false)
            };
            assert!(read(0x004, &BEFORE, [0x3C; 4]));
            assert!(read(0x008, &BEFORE, [0x99; 4]));
            for wrong in [[0x00, 0x3C, 0x3C, 0x3C], [0x3C, 0x3C, 0x3C, 0xFF], [0x99; 4], [0x00; 4]] {
                assert!(!read(0x004, &BEFORE, wrong));
            }
            for wrong in [[0x99, 0x00, 0x99, 0x99], [0x99, 0x99, 0x3C, 0x99], [0x3C; 4], [0x00; 4]] {
                assert!(!read(0x008, &BEFORE, wrong));
            }
            assert!(!read(0x004, &with(BEFORE, 0x000, [0]), [0x3C; 4]));
        }
    }

    #[test]
    fn ur_changes_nothing() {
        assert!(is_done(&asked(0x45, 3, &BEFORE, &TRUSTED), true));
        assert!(!is_done(&asked(0x45, 2, &BEFORE, &TRUSTED), true));
        assert!(!is_done(&asked(0x45, 3, &with(BEFORE, 0x004, DATA), &TRUSTED), true));
        assert!(!is_done(&asked(0x45, 3, &BEFORE, &with(TRUSTED, 0x004, DATA)), true));
    }

    #[test]
    fn an_answer_is_of_the_board_and_to_the_request() {
        let changed = |change: fn(&mut Heard)| {
            let mut view = asked(0x45, 3, &BEFORE, &TRUSTED);
            change(&mut view.heard);
            is_answer(&view)
        };
        assert!(changed(|_| {}));
        assert!(!changed(|heard| heard.number = 6));
        assert!(!changed(|heard| heard.tag = 4));
        assert!(!changed(|heard| heard.requester = [2, 1]));
        assert!(!changed(|heard| heard.completer = [5, 0x30]));
        assert!(!changed(|heard| heard.completer = [0, 1]));
    }
}
