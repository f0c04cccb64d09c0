//! A space with its rules and its marks: which of its bits may be written, and which are cleared by writing 1.

use super::marks::{check, cleared};
use super::merge::merged;
use super::refusal::Refusal;
use super::space::{Space, store_word, whole, whole_mut, word};

/// A space whose three buffers have the right size, and none of whose bits is marked doubly.
pub(super) struct RuledSpace<'lent> {
    bytes: &'lent mut Space,
    rules: &'lent Space,
    marks: &'lent Space,
}

impl<'lent> RuledSpace<'lent> {
    /// Refused with 1 where a buffer has another length, or a bit is marked both as writable and as cleared by writing
    /// 1.
    pub(super) fn new(bytes: &'lent mut [u8], rules: &'lent [u8], marks: &'lent [u8]) -> Result<Self, Refusal> {
        let ruled = Self {
            bytes: whole_mut(bytes)?,
            rules: whole(rules)?,
            marks: whole(marks)?,
        };
        check(ruled.rules, ruled.marks)?;
        Ok(ruled)
    }

    /// What a read returns of the word at an offset. Document 01: "A read returns enabled bytes as they are and others
    /// as 00h". Request 7/13 replaces that rule: "From now on every successful read returns all four bytes whatever the
    /// enables". So a read is not told of any.
    pub(super) fn read(&self, offset: usize) -> u32 {
        word(self.bytes, offset)
    }

    /// The byte at an address. Only what is stated rests on it.
    pub(super) const fn byte(&self, address: usize) -> u8 {
        self.bytes[address]
    }

    /// Does a write to the word at an offset: the data bits are taken where that may be, and marked bits are cleared. As
    /// no bit is both, it does not matter which is done first.
    pub(super) fn write(&mut self, offset: usize, data: u32, enables: u8) {
        let (rule, mark) = (word(self.rules, offset), word(self.marks, offset));
        debug_assert_eq!(rule & mark, 0, "a bit is marked doubly");
        let old = word(self.bytes, offset);
        let written = |old, enables| cleared(merged(old, rule, data, enables), mark, data, enables);
        let new = written(old, enables);
        debug_assert_eq!(new, merged(cleared(old, mark, data, enables), rule, data, enables));
        debug_assert_eq!(new, written(new, enables), "a write again changes something");
        let [some, others] = [enables & 0b0101, enables & 0b1010];
        debug_assert_eq!(new, written(written(old, some), others), "two writes are not one");
        debug_assert_eq!(new, written(written(old, others), some), "the order counts");
        store_word(self.bytes, offset, new);
    }
}
