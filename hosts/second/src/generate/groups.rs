//! The numbers of a Multicast capability: such as a reading can give, and plain noise.

use thawribbon::raw::Groups;

use super::random::Random;

/// The highest group that there can be.
pub const HIGHEST_GROUP: u64 = 63;
/// The least index of a record that is enabled.
pub const LEAST_INDEX: u64 = 12;

/// Numbers that are all random.
pub fn any_groups(random: &mut Random) -> Groups {
    let [max_group, num_group, enable, index, base, receive, block_all] = [(); 7].map(|()| random.bits());
    Groups {
        max_group,
        num_group,
        enable,
        index,
        base,
        receive,
        block_all,
    }
}

/// Numbers that some space gives, with their edges often.
pub fn sound_groups(random: &mut Random) -> Groups {
    let (max_group, num_group) = numbers(0, random);
    let enable = u64::from(random.percent(65));
    Groups {
        max_group,
        num_group,
        enable,
        index: index(enable, random),
        base: any_base(random),
        receive: any_register(random),
        block_all: any_register(random),
    }
}

/// A Max Group, and a Num Group of at most that which is not under a group.
pub fn numbers(group: u64, random: &mut Random) -> (u64, u64) {
    let any = between(group, HIGHEST_GROUP, random);
    let max_group = random.pick(&[group, HIGHEST_GROUP, any, any, any]);
    let any = between(group, max_group, random);
    (max_group, random.pick(&[group, max_group, any, any]))
}

/// An index that a record with this Enable may have.
pub fn index(enable: u64, random: &mut Random) -> u64 {
    let least = if enable == 1 { LEAST_INDEX } else { 0 };
    let any = between(least, 63, random);
    random.pick(&[least, 63, any, any, any, any, any, any])
}

/// A base address: its bits 63:12 in their place.
fn any_base(random: &mut Random) -> u64 {
    let any = random.bits();
    let short = any >> random.below(52);
    random.pick(&[0, u64::MAX, any, any, short, short]) & !0xFFF
}

/// The bits of a register: none, all, one, all but one, or any.
fn any_register(random: &mut Random) -> u64 {
    let one = 1 << random.below(64);
    let any = random.bits();
    random.pick(&[0, u64::MAX, one, !one, any, any, any, any])
}

/// A register whose bit for a group is as given: alone, with all others, or with any.
pub fn register_with(group: u64, is_set: bool, random: &mut Random) -> u64 {
    let one = 1 << group;
    let any = any_register(random);
    let others = random.pick(&[0, u64::MAX, any, any]);
    if is_set { others | one } else { others & !one }
}

/// A number from the lowest to the highest, both included. The highest is at most 63.
fn between(lowest: u64, highest: u64, random: &mut Random) -> u64 {
    random.within(lowest as usize, highest as usize) as u64
}
