//! An address judged by the Multicast records of a list of ports, by request 8/13: no hit, dropped, or which ports it
//! leaves by.

use super::multicast::{Groups, is_given};
use super::refusal::Refusal;
use super::space::SPACE_BYTES;

/// "given the records of up to 32 ports"
const MOST_PORTS: usize = 32;

/// What becomes of a packet. Bit k of the ports is the one at place k of the list.
#[derive(Clone, Copy, Debug, PartialEq, Eq)]
pub enum Verdict {
    NoHit,
    Dropped { group: u8 },
    Leaves { group: u8, ports: u32 },
}

/// The answer about an address: the number, and what becomes of the packet, which is nothing where it is refused.
#[derive(Clone, Copy, Debug, PartialEq, Eq)]
pub struct Judged {
    pub number: u8,
    pub verdict: Option<Verdict>,
}

/// Judges an address of a packet that enters by the port at a place of the list.
pub fn judge(ports: &[Groups], entering: usize, address: u64) -> Judged {
    match verdict(ports, entering, address) {
        Ok(verdict) => Judged {
            number: 0,
            verdict: Some(verdict),
        },
        Err(refusal) => Judged {
            number: refusal.number(),
            verdict: None,
        },
    }
}

/// "a longer list, no such port, or a record the reading can't give is 1." "A packet is dropped where it enters if that
/// port's Block All bit for the group is set; else it leaves by every other port whose own Receive bit for it is set. No
/// hit is an answer of its own."
fn verdict(ports: &[Groups], entering: usize, address: u64) -> Result<Verdict, Refusal> {
    if ports.len() > MOST_PORTS {
        return Err(Refusal::Outside);
    }
    let entered = ports.get(entering).ok_or(Refusal::Outside)?;
    let mut sheet = [0; SPACE_BYTES];
    if !ports.iter().all(|groups| is_given(groups, &mut sheet)) {
        return Err(Refusal::Outside);
    }
    let Some(group) = group_of(entered, address) else {
        return Ok(Verdict::NoHit);
    };
    if has_bit(entered.block_all, group) {
        return Ok(Verdict::Dropped { group });
    }
    let others = ports.iter().enumerate().filter(|&(place, _)| place != entering);
    let receivers = others.filter(|(_, port)| has_bit(port.receive, group));
    let ports_left_by = receivers.fold(0, |set, (place, _)| set | 1_u32 << place);
    debug_assert!(is_set_of_receivers(ports_left_by, ports, entering, group));
    Ok(Verdict::Leaves {
        group,
        ports: ports_left_by,
    })
}

/// "With the entering port's Enable set, an address at or above the base hits group floor((address − base) / 2^index) if
/// that is at most Num Group." In natural numbers: 128 bits hold them all.
fn group_of(entered: &Groups, address: u64) -> Option<u8> {
    let (base, address) = (u128::from(entered.base), u128::from(address));
    if entered.enable == 0 || address < base {
        return None;
    }
    let width = 2_u128.pow(entered.index as u32);
    let group = (address - base) / width;
    debug_assert!(base + group * width <= address && address < base + (group + 1) * width);
    (group <= u128::from(entered.num_group)).then_some(group as u8)
}

/// A register's bit for a group.
const fn has_bit(register: u64, group: u8) -> bool {
    register >> group & 1 == 1
}

/// The same once more, bit by bit of the answer. Only stated: no answer rests on it.
fn is_set_of_receivers(set: u32, ports: &[Groups], entering: usize, group: u8) -> bool {
    let weight = 2_u64.pow(group.into());
    (0..32).all(|place: usize| {
        let receives = |port: &Groups| port.receive / weight % 2 == 1;
        let is_due = place != entering && ports.get(place).is_some_and(receives);
        (set / 2_u32.pow(place as u32) % 2 == 1) == is_due
    })
}
