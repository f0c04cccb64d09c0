//! Faults of the records of ports: numbers that no reading gives.

use thawribbon::raw::Groups;

use super::cursor::Cursor;
use super::random::Random;

/// A cause why no reading gives a record.
#[derive(Clone, Copy)]
pub enum RecordFault {
    MaxGroup,
    NumGroup,
    Enable,
    IndexOver,
    IndexUnder,
    Base,
}

/// Puts faults into records. The bits that a number cannot have are taken in turn where the fault is the call's only one.
pub struct RecordFaultMaker {
    max_group_bits: Cursor,
    num_group_bits: Cursor,
    enable_bits: Cursor,
    index_bits: Cursor,
    base_bits: Cursor,
    indexes: Cursor,
}

impl RecordFaultMaker {
    pub const fn new() -> Self {
        Self {
            max_group_bits: Cursor::new(58),
            num_group_bits: Cursor::new(58),
            enable_bits: Cursor::new(63),
            index_bits: Cursor::new(58),
            base_bits: Cursor::new(12),
            indexes: Cursor::new(12),
        }
    }

    /// Puts a fault into a record.
    pub fn put(&mut self, fault: RecordFault, in_turn: bool, record: &mut Groups, random: &mut Random) {
        let high = random.bits() << random.within(6, 63);
        let mostly = random.percent(70);
        let barely = random.percent(40);
        let mut one_of = |bits: &mut Cursor, lowest: usize| 1_u64 << (lowest + bits.draw(in_turn, random));
        match fault {
            RecordFault::MaxGroup if mostly => record.max_group |= one_of(&mut self.max_group_bits, 6),
            RecordFault::MaxGroup if barely => record.max_group = 64,
            RecordFault::MaxGroup => record.max_group |= high | 64,
            RecordFault::NumGroup if mostly => record.num_group |= one_of(&mut self.num_group_bits, 6),
            RecordFault::NumGroup => over(record, random),
            RecordFault::Enable if mostly => record.enable |= one_of(&mut self.enable_bits, 1),
            RecordFault::Enable if barely => record.enable = 2,
            RecordFault::Enable => record.enable |= high | 2,
            RecordFault::IndexOver if mostly => record.index |= one_of(&mut self.index_bits, 6),
            RecordFault::IndexOver if barely => record.index = 64,
            RecordFault::IndexOver => record.index |= high | 64,
            RecordFault::IndexUnder => {
                record.enable = 1;
                record.index = self.indexes.draw(in_turn, random) as u64;
            }
            RecordFault::Base if mostly => record.base |= one_of(&mut self.base_bits, 0),
            RecordFault::Base => record.base |= random.within(1, 0xFFF) as u64,
        }
    }
}

/// A Num Group over Max Group, by one or by some, and not over 64.
fn over(record: &mut Groups, random: &mut Random) {
    record.max_group = random.below(64) as u64;
    let any = random.within(record.max_group as usize + 1, 64) as u64;
    record.num_group = random.pick(&[record.max_group + 1, record.max_group + 1, any]);
}

#[cfg(test)]
mod tests {
    use super::{RecordFault, RecordFaultMaker};
    use crate::generate::Random;
    use crate::generate::groups::sound_groups;
    use thawribbon::raw::Groups;

    fn is_sound(groups: &Groups) -> bool {
        let index_is_high = groups.enable == 0 || groups.index >= 12;
        let are_bits = groups.max_group < 64 && groups.index < 64 && groups.enable < 2 && groups.base % 4096 == 0;
        are_bits && index_is_high && groups.num_group <= groups.max_group
    }

    #[test]
    fn a_record_is_sound_until_a_fault_is_put_into_it() {
        let mut random = Random::new(1);
        let mut maker = RecordFaultMaker::new();
        let faults = [
            RecordFault::MaxGroup,
            RecordFault::NumGroup,
            RecordFault::Enable,
            RecordFault::IndexOver,
            RecordFault::IndexUnder,
            RecordFault::Base,
        ];
        for fault in faults.into_iter().cycle().take(30_000) {
            let mut record = sound_groups(&mut random);
            assert!(is_sound(&record), "{record:?}");
            let in_turn = random.percent(50);
            maker.put(fault, in_turn, &mut record, &mut random);
            assert!(!is_sound(&record), "{record:?}");
        }
    }
}
