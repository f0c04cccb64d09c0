//! The classes of request 7/13: that a read returns the bytes that are not enabled too, and that a write leaves them.

use super::access::{Parts, enabled};
use super::group::Group;
use super::serve::{History, ServeView};
use super::tally::Tally;
use super::whole_names::Neighbour;
use crate::twin::word;

/// A successful read, by what is due to it.
pub struct Read {
    pub trusted: bool,
    pub enables: u8,
    /// The four bytes that are due.
    pub due: [u8; 4],
    /// At A, the four that are stored there and are not due.
    pub stored_at_a: Option<[u8; 4]>,
}

impl Read {
    /// A read of a packet. What is due is taken byte by byte from the spaces as they were before.
    fn of(view: &ServeView<'_>, parts: &Parts) -> Self {
        let at_a = parts.is_at_a(view);
        let four_bytes = |space: &[u8], first: usize| [0, 1, 2, 3].map(|byte| space[first + byte]);
        let (space, first) = match (at_a, parts.trusted) {
            (true, _) => (view.trusted_before, view.case.description.b as usize),
            (false, true) => (view.trusted_before, parts.offset),
            (false, false) => (view.ordinary_before, parts.offset),
        };
        Self {
            trusted: parts.trusted,
            enables: parts.enables,
            due: four_bytes(space, first),
            stored_at_a: at_a.then(|| four_bytes(view.ordinary_before, parts.offset)),
        }
    }

    /// Where its word stands: ordinary, at A, trusted.
    const fn place(&self) -> usize {
        if self.stored_at_a.is_some() {
            1
        } else {
            2 * self.trusted as usize
        }
    }

    const fn is_enabled(&self, byte: usize) -> bool {
        self.enables >> byte & 1 == 1
    }

    /// Whether a byte is not the one that is stored at A in its place.
    fn is_not_stored(&self, byte: usize) -> bool {
        self.stored_at_a.is_none_or(|stored| stored[byte] != self.due[byte])
    }

    /// Whether a byte tells that the read is under no enables: it is not enabled, it is not the 00h that document 01
    /// had there, and at A it is not what is stored there.
    fn tells(&self, byte: usize) -> bool {
        !self.is_enabled(byte) && self.due[byte] != 0x00 && self.is_not_stored(byte)
    }

    /// The class of its enables, sixteen for each place, where each byte that is not enabled tells, and at A no byte is
    /// what is stored there.
    pub fn enables_class(&self) -> Option<usize> {
        let all_tell = (0..4).all(|byte| self.is_not_stored(byte) && (self.is_enabled(byte) || self.tells(byte)));
        all_tell.then_some(16 * self.place() + usize::from(self.enables))
    }
}

/// Counts a success by the bytes that it does not enable.
pub fn count_whole(view: &ServeView<'_>, parts: &Parts, history: &mut History, tally: &mut Tally) {
    match (parts.writes, parts.is_at_a(view)) {
        (true, true) => {}
        (true, false) => count_write(view, parts, history, tally),
        (false, _) => count_read(view, parts, history, tally),
    }
}

/// Counts a read. Where the model returns anything but the four bytes that are due, the run stops.
fn count_read(view: &ServeView<'_>, parts: &Parts, history: &History, tally: &mut Tally) {
    let read = Read::of(view, parts);
    assert_eq!(
        view.reply[12..view.served.length],
        read.due,
        "the model and the spaces disagree on what a read returns"
    );
    if let Some(class) = read.enables_class() {
        tally.add(Group::WholeEnables, class);
    }
    let telling = [0, 1, 2, 3].map(|byte| read.tells(byte));
    for (byte, tells) in telling.into_iter().enumerate() {
        tally.add_if(tells, Group::WholeBytes, 4 * read.place() + byte);
    }
    tally.add_if(
        telling.contains(&true),
        Group::WholeForms,
        8 * read.place() + parts.form,
    );
    count_neighbours(view, parts, &read, history, tally);
}

/// Counts a read by what became before of the bytes that tell.
fn count_neighbours(view: &ServeView<'_>, parts: &Parts, read: &Read, history: &History, tally: &mut Tally) {
    let b = view.case.description.b as usize;
    let (changed, mark) = if read.stored_at_a.is_some() {
        (history.b_changed, word(view.trusted_marks, b))
    } else {
        let (_, marks) = view.ruled(parts.trusted);
        (
            history.last_changed(parts.trusted, parts.offset),
            word(marks, parts.offset),
        )
    };
    let telling = u32::from_le_bytes([0, 1, 2, 3].map(|byte| if read.tells(byte) { 0xFF } else { 0x00 }));
    let due = u32::from_le_bytes(read.due);
    let mut add_if = |bits: u32, met: Neighbour| {
        let class = Neighbour::COUNT * read.place() + met as usize;
        tally.add_if(bits & telling != 0, Group::Neighbours, class);
    };
    add_if(changed, Neighbour::Changed);
    add_if(changed & mark & !due, Neighbour::Cleared);
    add_if(mark & due, Neighbour::Marked);
}

/// Counts a write, not at A, by its enables, where each byte that is not enabled has a bit that the data would change
/// were it enabled. Where the model changes such a byte, the run stops. What it changes is taken into the history.
fn count_write(view: &ServeView<'_>, parts: &Parts, history: &mut History, tally: &mut Tally) {
    let ([before, after], (rules, _)) = (view.spaces(parts.trusted), view.ruled(parts.trusted));
    let [old, new, rule] = [before, after, rules].map(|bytes| word(bytes, parts.offset));
    let others = !enabled(parts.enables);
    assert_eq!(
        (old ^ new) & others,
        0,
        "the model and the enables disagree on the bytes that a write leaves"
    );
    let left = (rule & (old ^ parts.data)).to_le_bytes();
    let all_left = (0..4).all(|byte| parts.enables >> byte & 1 == 1 || left[byte] != 0);
    if others != 0 && all_left {
        let first = 15 * usize::from(parts.trusted);
        tally.add(Group::LeftEnables, first + usize::from(parts.enables));
    }
    if old != new {
        history.last_changes[usize::from(parts.trusted)] = (parts.offset, old ^ new);
    }
}

#[cfg(test)]
mod tests {
    use super::Read;

    const fn read(enables: u8, due: [u8; 4], stored_at_a: Option<[u8; 4]>) -> Read {
        Read {
            trusted: false,
            enables,
            due,
            stored_at_a,
        }
    }

    #[test]
    fn enables_count_where_each_byte_without_one_tells() {
        for enables in 0..16 {
            let class = usize::from(enables);
            assert_eq!(read(enables, [1, 2, 3, 4], None).enables_class(), Some(class));
            let at_a = |stored| read(enables, [1, 2, 3, 4], Some(stored)).enables_class();
            assert_eq!(at_a([4, 3, 2, 1]), Some(16 + class));
            for byte in 0..4 {
                let mut due = [1, 2, 3, 4];
                due[byte] = 0;
                let is_enabled = enables >> byte & 1 == 1;
                assert_eq!(read(enables, due, None).enables_class(), is_enabled.then_some(class));
                let mut stored = [4, 3, 2, 1];
                stored[byte] = [1, 2, 3, 4][byte];
                assert_eq!(at_a(stored), None);
            }
        }
    }

    #[test]
    fn a_byte_tells_where_it_is_not_enabled_not_0_and_not_stored_at_a() {
        let telling = |read: Read| [0, 1, 2, 3].map(|byte| read.tells(byte));
        assert_eq!(telling(read(0b0010, [1, 2, 0, 4], None)), [true, false, false, true]);
        let at_a = read(0b0010, [1, 2, 0, 4], Some([1, 1, 1, 1]));
        assert_eq!(telling(at_a), [false, false, false, true]);
    }
}
