//! What the wrong ways to clear marked bits are made of.

use second::compare::{Reference, ServeCall, Subject};
use thawribbon::raw::Served;

use crate::harness::{Wrong, expect_caught, word};
use crate::serving::{again, code, offset, succeeds};

/// The word that a successful write is about, not at A: what it held, its rules and its marks, the data, and the bits of
/// the enabled bytes. Then the marks of the same word of the other space, and those of the words behind and before.
pub struct Word {
    pub trusted: bool,
    pub old: u32,
    pub rule: u32,
    pub mark: u32,
    pub data: u32,
    pub enabled: u32,
    pub other_mark: u32,
    pub next_mark: u32,
    pub last_mark: u32,
}

impl Word {
    fn of(call: &ServeCall<'_>) -> Self {
        let (trusted, at) = (code(call) == 0x5B, offset(call.packet));
        let (space, rules, marks, other_marks) = if trusted {
            (
                &*call.trusted,
                call.trusted_rules,
                call.trusted_marks,
                call.ordinary_marks,
            )
        } else {
            (
                &*call.ordinary,
                call.ordinary_rules,
                call.ordinary_marks,
                call.trusted_marks,
            )
        };
        Self {
            trusted,
            old: word(space, at),
            rule: word(rules, at),
            mark: word(marks, at),
            data: word(call.packet, 12),
            enabled: enabled(call.packet),
            other_mark: word(other_marks, at),
            next_mark: word(marks, (at + 4) % 4096),
            last_mark: word(marks, (at + 4092) % 4096),
        }
    }

    /// What is left where the bits that may be written are as the data, and no marked bit changes.
    pub const fn taken(&self) -> u32 {
        let open = self.rule & self.enabled;
        self.old & !open | self.data & open
    }

    /// What is left where these bits are cleared too.
    pub const fn without(&self, cleared: u32) -> u32 {
        self.taken() & !cleared
    }

    /// The bits that are to be cleared.
    pub const fn due(&self) -> u32 {
        self.mark & self.data & self.enabled
    }

    /// What is to be left.
    pub const fn right(&self) -> u32 {
        self.without(self.due())
    }
}

/// The bits of the bytes that four enables name.
pub fn bits_of(enables: u8) -> u32 {
    let byte = |place: u8| if enables >> place & 1 == 1 { 0xFF } else { 0x00 };
    u32::from_le_bytes([0, 1, 2, 3].map(byte))
}

/// The bits of a packet's enabled bytes.
pub fn enabled(packet: &[u8]) -> u32 {
    bits_of(packet[7])
}

/// Whether an ordinary packet asks for the word at A.
pub fn is_at_a(call: &ServeCall<'_>) -> bool {
    code(call) & 0x3F != 0x1B && offset(call.packet) == call.description.a as usize
}

/// Serves where a successful write, not at A, leaves another word than the model's.
pub fn leaves(other: impl Fn(&Word) -> u32 + 'static) -> Wrong {
    Wrong::serve(move |mut call| {
        if !succeeds(&mut call) || code(&call) & 0x40 == 0 || is_at_a(&call) {
            return Reference.serve(call);
        }
        let word = Word::of(&call);
        let served = Reference.serve(again(&mut call));
        let space = if word.trusted { call.trusted } else { call.ordinary };
        let at = offset(call.packet);
        space[at..at + 4].copy_from_slice(&other(&word).to_le_bytes());
        served
    })
}

/// Fails unless a server that leaves another word is caught.
pub fn expect_caught_leaving(other: impl Fn(&Word) -> u32 + 'static) {
    expect_caught(leaves(other), "serve");
}

/// Clears some bits of a word.
pub fn clear(space: &mut [u8], at: usize, bits: u32) {
    let left = word(space, at) & !bits;
    space[at..at + 4].copy_from_slice(&left.to_le_bytes());
}

/// A space, and the bits of one of its words.
pub struct Bits {
    pub trusted: bool,
    pub at: usize,
    pub bits: u32,
}

/// Serves where some bits are cleared besides, after the model has served. The answer that it gave is handed on, with
/// whether it is a success.
pub fn expect_caught_clearing(besides: impl Fn(&ServeCall<'_>, Served, bool) -> Option<Bits> + 'static) {
    let clears = move |mut call: ServeCall<'_>| {
        let served = Reference.serve(again(&mut call));
        let done = served.number == 0 && call.reply[6] == 0;
        if let Some(Bits { trusted, at, bits }) = besides(&call, served, done) {
            clear(if trusted { call.trusted } else { call.ordinary }, at, bits);
        }
        served
    };
    expect_caught(Wrong::serve(clears), "serve");
}

/// The marked bits of the word that a packet with data asks for, in its own space, where its enabled data are 1.
pub fn would_clear(call: &ServeCall<'_>) -> Bits {
    let (trusted, at) = (code(call) & 0x3F == 0x1B, offset(call.packet));
    let marks = if trusted {
        call.trusted_marks
    } else {
        call.ordinary_marks
    };
    Bits {
        trusted,
        at,
        bits: word(marks, at) & word(call.packet, 12) & enabled(call.packet),
    }
}
