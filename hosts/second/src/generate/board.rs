//! A board that lives for some calls: its description, its capture, and two spaces with their rules and their marks.

use thawribbon::raw::{Capture, Description};

use super::edition::right_edition;
use super::marks::{Doubling, LONGEST_MARKS, fill_marks};
use super::random::Random;
use crate::twin::Twin;

/// The longest space that is lent.
pub const LONGEST_SPACE: usize = 4100;
/// The size that every space ought to have.
pub const SPACE_BYTES: usize = 4096;
/// The most calls that a board lives for.
const LONGEST_LIFE: usize = 200;

/// A well-described board.
pub struct Board {
    pub description: Description,
    pub capture: Option<(u8, u8)>,
    pub ordinary: Twin<u8>,
    pub ordinary_rules: Twin<u8>,
    pub ordinary_marks: Twin<u8>,
    pub trusted: Twin<u8>,
    pub trusted_rules: Twin<u8>,
    pub trusted_marks: Twin<u8>,
    /// Whether bits of the ordinary and of the trusted space are marked doubly, until that is undone.
    doubled: [bool; 2],
    calls_left: usize,
}

impl Board {
    /// A board whose life is over, to be renewed.
    pub fn spent() -> Self {
        let space = || Twin::new(LONGEST_SPACE);
        Self {
            description: Description::default(),
            capture: None,
            ordinary: space(),
            ordinary_rules: space(),
            ordinary_marks: Twin::new(LONGEST_MARKS),
            trusted: space(),
            trusted_rules: space(),
            trusted_marks: Twin::new(LONGEST_MARKS),
            doubled: [false; 2],
            calls_left: 0,
        }
    }

    /// Uses up one call of the board's life. Where none is left, the board is made anew, and the answer is true.
    pub fn live(&mut self, random: &mut Random) -> bool {
        let over = self.calls_left == 0;
        if over {
            self.renew(random);
        }
        self.calls_left -= 1;
        over
    }

    /// Makes the board anew, for a life of so many calls, with all of its spaces lent as a whole.
    pub fn renew(&mut self, random: &mut Random) {
        self.calls_left = random.within(1, LONGEST_LIFE);
        self.capture = None;
        self.description = description(random);
        for space in [&mut self.ordinary, &mut self.trusted] {
            space.shift(random.below(8));
            fill_space(space, random);
        }
        for rules in [&mut self.ordinary_rules, &mut self.trusted_rules] {
            rules.shift(random.below(8));
            fill_rules(rules, random);
        }
        for (rules, marks) in self.ruled() {
            marks.shift(random.below(8));
            fill_marks(marks, rules.ours(), random);
        }
        self.lend([SPACE_BYTES; 6]);
    }

    /// Gives the board another one's ordinary space, with its rules and its marks.
    pub fn take_ordinary(&mut self, other: &Self) {
        self.ordinary.set(0, other.ordinary.ours());
        self.ordinary_rules.set(0, other.ordinary_rules.ours());
        self.ordinary_marks.set(0, other.ordinary_marks.ours());
    }

    /// Gives the board another one's trusted space, with its rules and its marks.
    pub fn take_trusted(&mut self, other: &Self) {
        self.trusted.set(0, other.trusted.ours());
        self.trusted_rules.set(0, other.trusted_rules.ours());
        self.trusted_marks.set(0, other.trusted_marks.ours());
    }

    /// The rules and the marks of the ordinary space, and those of the trusted one.
    fn ruled(&mut self) -> [(&mut Twin<u8>, &mut Twin<u8>); 2] {
        [
            (&mut self.ordinary_rules, &mut self.ordinary_marks),
            (&mut self.trusted_rules, &mut self.trusted_marks),
        ]
    }

    /// Now and then, errors have come up before a call: marked bits of a word are set, as no packet can set them. It is
    /// the word of both spaces that the call asks for, the one at A, or the one at B.
    pub fn raise(&mut self, asked: usize, random: &mut Random) {
        self.lend([SPACE_BYTES; 6]);
        let (a, b) = (self.description.a as usize, self.description.b as usize);
        let (ordinary, trusted) = match random.weighted(&[65, 20, 7, 8]) {
            0 => (None, None),
            1 => (Some(asked), Some(asked)),
            2 => (Some(a), None),
            _ => (None, Some(b)),
        };
        set_marked_bits(&mut self.ordinary, &self.ordinary_marks, ordinary);
        set_marked_bits(&mut self.trusted, &self.trusted_marks, trusted);
    }

    /// Errors have come up: the marked bits of the word at an offset are set in both spaces, and where that is A, those of
    /// the word at B.
    pub fn raise_at(&mut self, asked: usize) {
        let (a, b) = (self.description.a as usize, self.description.b as usize);
        set_marked_bits(&mut self.ordinary, &self.ordinary_marks, Some(asked));
        set_marked_bits(&mut self.trusted, &self.trusted_marks, Some(asked));
        set_marked_bits(&mut self.trusted, &self.trusted_marks, (asked == a).then_some(b));
    }

    /// Marks bits of the ordinary and of the trusted space doubly, for one call.
    pub fn double(&mut self, doublings: [Option<Doubling>; 2]) {
        self.lend([SPACE_BYTES; 6]);
        self.doubled = doublings.map(|doubling| doubling.is_some());
        for ((rules, marks), doubling) in self.ruled().into_iter().zip(doublings) {
            if let Some(doubling) = doubling {
                rules.remember();
                marks.remember();
                doubling.put(rules, marks);
            }
        }
    }

    /// Puts the rules and the marks back as they were.
    pub fn undo_doubling(&mut self) {
        let doubled = self.doubled;
        for ((rules, marks), _) in self.ruled().into_iter().zip(doubled).filter(|(_, doubled)| *doubled) {
            rules.restore();
            marks.restore();
        }
        self.doubled = [false; 2];
    }

    /// The board's capture in one of the forms that the library takes for it: any number but 0 tells that something is
    /// captured, and where nothing is, the bus and the device may hold anything.
    pub fn kept(&self, random: &mut Random) -> Capture {
        match self.capture {
            Some((bus, device)) if random.percent(80) => Capture {
                captured: 1,
                bus,
                device,
            },
            Some((bus, device)) => Capture {
                captured: random.byte() | 2,
                bus,
                device,
            },
            None if random.percent(50) => Capture::default(),
            None => Capture {
                captured: 0,
                bus: random.byte(),
                device: random.byte(),
            },
        }
    }

    /// Lends the two spaces and what goes with them by these lengths: ordinary, its rules, trusted, its rules, and the
    /// marks of both.
    pub fn lend(&mut self, lengths: [usize; 6]) {
        let [
            ordinary,
            ordinary_rules,
            trusted,
            trusted_rules,
            ordinary_marks,
            trusted_marks,
        ] = lengths;
        self.ordinary.lend(ordinary);
        self.ordinary_rules.lend(ordinary_rules);
        self.trusted.lend(trusted);
        self.trusted_rules.lend(trusted_rules);
        self.ordinary_marks.lend(ordinary_marks);
        self.trusted_marks.lend(trusted_marks);
    }
}

/// Sets all marked bits of the word at an offset, if one is given.
fn set_marked_bits(space: &mut Twin<u8>, marks: &Twin<u8>, offset: Option<usize>) {
    if let Some(offset) = offset {
        space.set_word(offset, space.word(offset) | marks.word(offset));
    }
}

/// A function, places for the Device Correlation word, at their ends, alike, or anywhere, and one of the two editions.
fn description(random: &mut Random) -> Description {
    let a = match random.below(5) {
        0 => 0x104,
        1 => 0xFFC,
        _ => any_word(random, 0x104),
    };
    let b = match random.below(6) {
        0 => 0x00C,
        1 => 0xFFC,
        2 => a,
        _ => any_word(random, 0x00C),
    };
    Description {
        function: random.below(8) as u8,
        a,
        b,
        edition: right_edition(random),
    }
}

/// A multiple of 4 from the lowest to FFCh.
fn any_word(random: &mut Random, lowest: usize) -> u32 {
    4 * random.within(lowest / 4, 0xFFC / 4) as u32
}

/// Random bytes, or one byte everywhere.
fn fill_space(space: &mut Twin<u8>, random: &mut Random) {
    space.refill(|bytes| match random.below(8) {
        0 => bytes.fill(0x00),
        1 => bytes.fill(0xFF),
        _ => random.fill(bytes),
    });
}

/// Rule words of all three sorts: nothing may be written, all may, or some bits may.
fn fill_rules(rules: &mut Twin<u8>, random: &mut Random) {
    rules.refill(|bytes| random.fill(bytes));
    rules.lend(LONGEST_SPACE);
    rules.refill_lent(|bytes| {
        for word in bytes.chunks_exact_mut(4) {
            match random.below(6) {
                0 => word.fill(0x00),
                1 => word.fill(0xFF),
                _ => {}
            }
        }
    });
}
