//! The group that an address hits, by the bounds of the windows one after another, and the classes of addresses. The model
//! divides.

use thawribbon::raw::Groups;

use super::group::Group;
use super::judge_names::{Edge, NoHit};
use super::tally::Tally;
use crate::generate::JudgeCase;

/// The window of a group: its first address, and its last one or the last of all.
#[derive(Clone, Copy, Debug, PartialEq, Eq)]
pub struct Window {
    pub group: u8,
    first: u64,
    last: u64,
}

/// What an address hits of a record.
#[derive(Clone, Copy, Debug, PartialEq, Eq)]
pub enum Hit {
    Disabled,
    Below,
    Group(Window),
    /// It is above the last group, which ends with this address.
    Above(u64),
}

impl Hit {
    /// Goes from window to window, from the base on, until one has the address. None of them begins past it, so no sum
    /// goes past 2^64; one that would end there has all that is left.
    pub fn of(record: &Groups, address: u64) -> Self {
        if record.enable == 0 {
            return Self::Disabled;
        }
        if address < record.base {
            return Self::Below;
        }
        let mut first = record.base;
        let mut group = 0;
        loop {
            let last = first.saturating_add(rest_of_window(record));
            if address <= last {
                return Self::Group(Window { group, first, last });
            }
            if u64::from(group) == record.num_group {
                return Self::Above(last);
            }
            (first, group) = (last + 1, group + 1);
        }
    }
}

/// How many addresses a window has behind its first.
const fn rest_of_window(record: &Groups) -> u64 {
    (1 << record.index) - 1
}

/// The first number behind the last window, be it past 2^64.
fn end(record: &Groups) -> u128 {
    u128::from(record.base) + span(record)
}

/// How many addresses all windows have.
fn span(record: &Groups) -> u128 {
    (u128::from(record.num_group) + 1) << record.index
}

/// Whether the record of some port but the one that is entered by has a group for the address.
fn another_hits(case: &JudgeCase) -> bool {
    let others = case
        .ports
        .iter()
        .enumerate()
        .filter(|&(place, _)| place != case.entering);
    let mut hits = others.map(|(_, record)| Hit::of(record, case.address));
    hits.any(|hit| matches!(hit, Hit::Group(_)))
}

/// Counts where an address lies, by the index and by its edges.
pub fn count_address(case: &JudgeCase, hit: Hit, tally: &mut Tally) {
    let (record, address) = (&case.ports[case.entering], case.address);
    let place = match hit {
        Hit::Disabled => None,
        Hit::Group(window) if address == window.first => Some(0),
        Hit::Group(window) if address == window.last => Some(2),
        Hit::Group(_) => Some(1),
        Hit::Below if address + 1 == record.base => Some(3),
        Hit::Below => None,
        Hit::Above(last) if address == last + 1 => Some(4),
        Hit::Above(_) => Some(5),
    };
    if let Some(place) = place {
        tally.add(Group::JudgeIndexes, 6 * (record.index as usize - 12) + place);
    }
    match hit {
        Hit::Group(window) => count_edges(case, window, tally),
        Hit::Disabled => count_disabled(record, address, tally),
        Hit::Below => count_below(record, address, tally),
        Hit::Above(last) => count_above(record, address, last, tally),
    }
    let missed = !matches!(hit, Hit::Group(_));
    tally.add_if(
        missed && another_hits(case),
        Group::JudgeNoHits,
        NoHit::OtherPortHits as usize,
    );
}

fn count_edges(case: &JudgeCase, window: Window, tally: &mut Tally) {
    const TOP: u128 = 1 << 64;
    let (record, address) = (&case.ports[case.entering], case.address);
    let mut add_if = |condition, edge| tally.add_if(condition, Group::JudgeEdges, edge as usize);
    let is_last = u64::from(window.group) == record.num_group;
    let highest = record.base == !0xFFF;
    add_if(address == record.base, Edge::AtTheBase);
    add_if(is_last && address == window.last, Edge::LastOfLast);
    add_if(address == u64::MAX, Edge::LastAddress);
    add_if(record.base == 0, Edge::BaseZero);
    add_if(highest, Edge::HighestBase);
    add_if(highest && address == u64::MAX, Edge::HighestBaseLastAddress);
    add_if(end(record) == TOP, Edge::EndAtTop);
    add_if(end(record) > TOP, Edge::PastTop);
    let cut = window.first.checked_add(rest_of_window(record)).is_none();
    add_if(cut, Edge::OwnWindowPastTop);
    add_if(span(record) >= TOP, Edge::SpanOver64Bits);
    add_if(is_last && window.group > 0, Edge::LastGroup);
    add_if(record.index == 63 && window.group == 0, Edge::Index63Group0);
    add_if(record.index == 63 && window.group == 1, Edge::Index63Group1);
    add_if(window.group >= 32, Edge::HighGroup);
    add_if(address >= !0xFFF && !highest, Edge::BeforeTop);
    add_if(case.ports.len() > 1 && !another_hits(case), Edge::OtherPortMisses);
}

/// Counts an address at a record that is not enabled, by where it would lie.
fn count_disabled(record: &Groups, address: u64, tally: &mut Tally) {
    let enabled = Groups { enable: 1, ..*record };
    let why = match Hit::of(&enabled, address) {
        _ if record.index < 12 => NoHit::DisabledLowIndex,
        Hit::Below => NoHit::DisabledBelow,
        Hit::Above(_) => NoHit::DisabledAbove,
        Hit::Group(_) | Hit::Disabled => NoHit::DisabledInAWindow,
    };
    tally.add(Group::JudgeNoHits, why as usize);
}

fn count_below(record: &Groups, address: u64, tally: &mut Tally) {
    let mut add_if = |condition, why| tally.add_if(condition, Group::JudgeNoHits, why as usize);
    add_if(address + 1 == record.base, NoHit::OneUnder);
    add_if(address + 1 < record.base, NoHit::FurtherUnder);
    add_if(address == 0, NoHit::AddressZero);
    let anew = u128::from(address) + (1 << 64);
    add_if(anew < end(record), NoHit::BeginsAnew);
}

fn count_above(record: &Groups, address: u64, last: u64, tally: &mut Tally) {
    let windows = (address - record.base) >> record.index;
    let is_good_by = |bits: u32| windows >> bits != 0 && windows % (1 << bits) <= record.num_group;
    let mut add_if = |condition, why| tally.add_if(condition, Group::JudgeNoHits, why as usize);
    add_if(address == last + 1, NoHit::RightBehind);
    add_if(windows <= record.max_group, NoHit::WithinMaxGroup);
    add_if(is_good_by(6), NoHit::Low6Bits);
    add_if(is_good_by(8), NoHit::Low8Bits);
    add_if(is_good_by(16), NoHit::Low16Bits);
    add_if(is_good_by(32), NoHit::Low32Bits);
    add_if(address == u64::MAX, NoHit::LastAddress);
    let high = windows >> 6;
    if is_good_by(6) && high.is_power_of_two() {
        tally.add(Group::JudgeQuotients, high.ilog2() as usize);
    }
}

#[cfg(test)]
mod tests {
    use super::{Hit, Window};
    use thawribbon::raw::Groups;

    fn record(num_group: u64, index: u64, base: u64) -> Groups {
        Groups {
            max_group: 63,
            num_group,
            enable: 1,
            index,
            base,
            ..Groups::ZEROS
        }
    }

    fn window(group: u8, first: u64, last: u64) -> Hit {
        Hit::Group(Window { group, first, last })
    }

    #[test]
    fn windows_follow_one_another_up_to_the_last() {
        let record = record(1, 12, 0x5000);
        assert_eq!(Hit::of(&record, 0x4FFF), Hit::Below);
        assert_eq!(Hit::of(&record, 0x5FFF), window(0, 0x5000, 0x5FFF));
        assert_eq!(Hit::of(&record, 0x6000), window(1, 0x6000, 0x6FFF));
        assert_eq!(Hit::of(&record, 0x7000), Hit::Above(0x6FFF));
        assert_eq!(Hit::of(&Groups { enable: 0, ..record }, 0x5000), Hit::Disabled);
    }

    #[test]
    fn a_window_that_would_end_past_2_to_the_64_has_what_is_left() {
        let first = 0xC000_0000_0000_1000;
        assert_eq!(Hit::of(&record(63, 62, 0x1000), u64::MAX), window(3, first, u64::MAX));
        assert_eq!(Hit::of(&record(63, 63, !0xFFF), u64::MAX), window(0, !0xFFF, u64::MAX));
        assert_eq!(Hit::of(&record(1, 63, 0), u64::MAX), window(1, 1 << 63, u64::MAX));
        assert_eq!(Hit::of(&record(0, 63, 0), u64::MAX), Hit::Above((1 << 63) - 1));
    }
}
