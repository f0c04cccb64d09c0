//! The classes of a Multicast capability that is read: its numbers, taken from the bytes once more, and the bits around
//! them.

use thawribbon::raw::Groups;

use super::group::Group;
use super::multicast_names::MulticastForm;
use super::tally::Tally;

/// Runs of bits that belong to no field: the byte from which they are counted, the first of them, and how many they are.
const FREE: [(usize, usize, usize); 5] = [(0, 20, 12), (4, 6, 10), (6, 6, 9), (8, 6, 6), (0x20, 0, 64)];

/// Counts a capability whose bytes begin here, after a look at each number that was read.
pub fn count_read(bytes: &[u8], at: usize, groups: &Groups, tally: &mut Tally) {
    assert_eq!(
        *groups,
        numbers(bytes),
        "the model and the bytes disagree on a Multicast capability"
    );
    let [max_group, num_group, enable, index] =
        [groups.max_group, groups.num_group, groups.enable, groups.index].map(|number| number as usize);
    tally.add(Group::MulticastOffsets, (at - 0x100) / 4);
    tally.add(Group::MulticastNumbers, 2 * max_group + enable);
    tally.add(Group::MulticastNumbers, 128 + 2 * num_group + enable);
    let indexes_before = if enable == 1 { 64 - 12 } else { 0 };
    tally.add(Group::MulticastIndexes, indexes_before + index);
    let registers = [groups.receive, groups.block_all];
    let mut class = 0;
    for (register, lowest) in [(registers[0], 0), (registers[1], 0), (groups.base, 12)] {
        for bit in lowest..64 {
            tally.add(Group::MulticastBits, class + usize::from(register & 1 << bit != 0));
            class += 2;
        }
    }
    count_free(bytes, tally);
    count_forms(groups, at, bytes, tally);
}

/// The numbers, taken from bytes and by remainders.
fn numbers(bytes: &[u8]) -> Groups {
    let eight = |first: usize| {
        let taken = bytes[first..first + 8].iter().rev();
        taken.fold(0_u64, |sum, &byte| sum * 256 + u64::from(byte))
    };
    let place = eight(8);
    Groups {
        max_group: u64::from(bytes[4] % 64),
        num_group: u64::from(bytes[6] % 64),
        enable: u64::from(bytes[7] / 128),
        index: place % 64,
        base: place - place % 4096,
        receive: eight(0x10),
        block_all: eight(0x18),
    }
}

/// Whether a bit, counted from a byte on, is set.
fn is_set(bytes: &[u8], from: usize, bit: usize) -> bool {
    bytes[from + bit / 8] & 1 << (bit % 8) != 0
}

/// Counts the bits that belong to no field, clear and set.
fn count_free(bytes: &[u8], tally: &mut Tally) {
    let mut class = 0;
    for (from, first, count) in FREE {
        for bit in first..first + count {
            tally.add(Group::MulticastFree, class + usize::from(is_set(bytes, from, bit)));
            class += 2;
        }
    }
}

fn count_forms(groups: &Groups, at: usize, bytes: &[u8], tally: &mut Tally) {
    let Groups {
        max_group,
        num_group,
        enable,
        index,
        base,
        ..
    } = *groups;
    let mut add_if = |condition, form| tally.add_if(condition, Group::MulticastForms, form as usize);
    let enabled = enable == 1;
    add_if(max_group == 0, MulticastForm::OneGroupOfOne);
    add_if(num_group == 63, MulticastForm::AllGroupsOfAll);
    let between = 0 < max_group && max_group < 63;
    add_if(between && num_group == max_group, MulticastForm::AsMany);
    add_if(num_group + 1 == max_group, MulticastForm::OneFewer);
    add_if(base == 0, MulticastForm::LeastBase);
    add_if(base == !0xFFF, MulticastForm::HighestBase);
    add_if(!enabled && index < 12, MulticastForm::LowIndex);
    add_if(enabled && index == 12, MulticastForm::LeastIndex);
    add_if(enabled && index == 63, MulticastForm::HighestIndex);
    add_if(at == 0x100, MulticastForm::Lowest);
    add_if(at == 0xFD8, MulticastForm::Highest);
    let mut in_fields = FREE[1..4]
        .iter()
        .flat_map(|&(from, first, count)| (first..first + count).map(move |bit| (from, bit)));
    let all_set = in_fields.all(|(from, bit)| is_set(bytes, from, bit));
    add_if(all_set, MulticastForm::PointedOut);
}
