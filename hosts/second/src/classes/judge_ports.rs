//! What is due to an address with number 0, and the classes of the ports that a packet leaves by.

use thawribbon::raw::{Groups, Judged};

use super::group::Group;
use super::judge_names::{Other, PortSet};
use super::judge_window::Hit;
use super::tally::Tally;
use crate::generate::JudgeCase;

/// The verdicts as they cross to a host.
const NO_HIT: u8 = 1;
const DROPPED: u8 = 2;
const LEAVES: u8 = 3;

/// Whether a register has the bit of a group, by its bytes.
fn has(register: u64, group: u8) -> bool {
    register.to_le_bytes()[usize::from(group / 8)] & 1 << (group % 8) != 0
}

/// The answer to a call that is not refused, whose address hits this.
pub fn due(case: &JudgeCase, hit: Hit) -> Judged {
    let Hit::Group(window) = hit else {
        return Judged {
            verdict: NO_HIT,
            ..Judged::default()
        };
    };
    let group = window.group;
    let dropped = has(case.ports[case.entering].block_all, group);
    let mut left_by = [false; 32];
    for (place, port) in case.ports.iter().enumerate() {
        left_by[place] = !dropped && has(port.receive, group);
    }
    left_by[case.entering] = false;
    Judged {
        ports: left_by.iter().rev().fold(0, |set, &left| 2 * set + u32::from(left)),
        number: 0,
        verdict: if dropped { DROPPED } else { LEAVES },
        group,
    }
}

/// The ports of a list but the one that is entered by, each with its place.
fn others(case: &JudgeCase) -> impl Iterator<Item = (usize, &Groups)> {
    let places = case.ports.iter().enumerate();
    places.filter(|&(place, _)| place != case.entering)
}

/// Counts what became of a group that is hit.
pub fn count_ports(case: &JudgeCase, group: u8, judged: Judged, tally: &mut Tally) {
    let (length, entering) = (case.ports.len(), case.entering);
    tally.add(Group::JudgeEntering, length * (length - 1) / 2 + entering);
    let sort = match (judged.verdict, judged.ports) {
        (DROPPED, _) => 0,
        (_, 0) => 1,
        _ => 2,
    };
    tally.add(Group::JudgeGroups, 3 * usize::from(group) + sort);
    let own = &case.ports[entering];
    count_register(own.block_all, group, Group::JudgeBlockBits, tally);
    if judged.verdict == DROPPED {
        count_dropped(case, group, tally);
        return;
    }
    let receives = usize::from(has(own.receive, group));
    tally.add(Group::JudgeOwn, 2 * entering + receives);
    for (place, port) in others(case) {
        let is_left_by = judged.ports >> place & 1 == 1;
        let pair = 31 * entering + place - usize::from(place > entering);
        tally.add(Group::JudgePorts, 2 * pair + usize::from(is_left_by));
        count_register(port.receive, group, Group::JudgeReceiveBits, tally);
        count_other(own, port, case.address, group, is_left_by, tally);
    }
    count_set(case, judged.ports, tally);
}

/// Counts a register that has the bit of the group alone, or all bits but that.
fn count_register(register: u64, group: u8, into: Group, tally: &mut Tally) {
    let alone = 1_u64.rotate_left(group.into());
    tally.add_if(register == !alone, into, 2 * usize::from(group));
    tally.add_if(register == alone, into, 2 * usize::from(group) + 1);
}

fn count_dropped(case: &JudgeCase, group: u8, tally: &mut Tally) {
    let mut add_if = |condition, other| tally.add_if(condition, Group::JudgeOthers, other as usize);
    let is_willing = |(_, port): (usize, &Groups)| has(port.receive, group) && !has(port.block_all, group);
    add_if(others(case).any(is_willing), Other::DroppedWhileReceived);
    let receives = has(case.ports[case.entering].receive, group);
    add_if(receives, Other::DroppedWithOwnReceive);
    add_if(!receives, Other::DroppedWithoutOwnReceive);
}

/// Counts what another port has besides its Receive bit, which alone decides.
fn count_other(own: &Groups, port: &Groups, address: u64, group: u8, is_left_by: bool, tally: &mut Tally) {
    let mut add_if = |condition, other| tally.add_if(condition, Group::JudgeOthers, other as usize);
    let blocks = has(port.block_all, group);
    if !is_left_by {
        add_if(port.enable == 1 && !blocks, Other::NotReceivedNotBlocking);
        return;
    }
    let is_under = |number: u64| number < u64::from(group);
    add_if(port.enable == 0, Other::Disabled);
    add_if(is_under(port.num_group), Other::LowNumGroup);
    add_if(is_under(port.max_group), Other::LowMaxGroup);
    add_if(port.base > address, Other::BaseAbove);
    add_if(port.index != own.index, Other::UnlikeIndex);
    add_if(blocks, Other::Blocking);
    let numbers = |record: &Groups| [record.enable, record.num_group, record.index, record.base];
    add_if(numbers(port) == numbers(own), Other::AllAlike);
}

fn count_set(case: &JudgeCase, ports: u32, tally: &mut Tally) {
    let mut add_if = |condition, set| tally.add_if(condition, Group::JudgeSets, set as usize);
    let length = case.ports.len();
    let (left_by, other) = (ports.count_ones() as usize, length - 1);
    add_if(other == 0, PortSet::NoOther);
    add_if(other > 1 && left_by == 0, PortSet::NoneOfSeveral);
    add_if(other > 1 && left_by == other, PortSet::AllOthers);
    add_if(left_by == 31, PortSet::All31);
    add_if(length == 32 && ports == 1, PortSet::OnlyFirst);
    add_if(length == 32 && ports == 1 << 31, PortSet::OnlyLast);
    add_if(length == 2 && left_by == 1, PortSet::TheOtherOfTwo);
    add_if(length == 32 && left_by == 30, PortSet::AllButOne);
}
