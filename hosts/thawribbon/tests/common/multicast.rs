//! A switch's multicast: capabilities as they lie in a space, and addresses judged by `raw::judge` and by `judge`, with what
//! a second way to read and to judge makes of them.

use super::{Lent, SPACE, lent};
use thawribbon::{Groups, Judged, judge, raw};

/// The bytes of a capability.
pub const CAPABILITY: usize = 0x28;

/// Where [`FOUR`] has its groups.
pub const FOUR_AT: u64 = 0x8_0000_0000;

/// An enabled capability with groups 0 to 3 of 1000h addresses each. It receives nothing and blocks nothing.
pub const FOUR: Groups = Groups {
    max_group: 63,
    num_group: 3,
    enable: 1,
    index: 12,
    base: FOUR_AT,
    receive: 0,
    block_all: 0,
};

/// The bytes of a capability that has these fields, each within its bits. All bits that are no field's are 0.
pub fn capability(groups: Groups) -> [u8; CAPABILITY] {
    let mut bytes = [0; CAPABILITY];
    let control = groups.num_group + groups.enable * 0x8000;
    bytes[..4].copy_from_slice(&[0x12, 0x00, 0x01, 0x00]);
    bytes[0x04..0x06].copy_from_slice(&(groups.max_group as u16).to_le_bytes());
    bytes[0x06..0x08].copy_from_slice(&(control as u16).to_le_bytes());
    bytes[0x08..0x10].copy_from_slice(&(groups.base + groups.index).to_le_bytes());
    bytes[0x10..0x18].copy_from_slice(&groups.receive.to_le_bytes());
    bytes[0x18..0x20].copy_from_slice(&groups.block_all.to_le_bytes());
    bytes
}

/// A space of zeros with these bytes at an offset, as many as there is room for.
pub fn space_with(bytes: &[u8], at: usize) -> Vec<u8> {
    let mut space = vec![0; SPACE];
    let length = bytes.len().min(SPACE - at);
    space[at..at + length].copy_from_slice(&bytes[..length]);
    space
}

/// The fields of a capability's bytes, read a second way.
pub fn fields(bytes: &[u8]) -> Groups {
    let number = |from: usize, to: usize| {
        bytes[from..to]
            .iter()
            .rev()
            .fold(0, |sum, &byte| sum * 256 + u64::from(byte))
    };
    Groups {
        max_group: number(0x04, 0x06) % 64,
        num_group: number(0x06, 0x08) % 64,
        enable: number(0x06, 0x08) / 0x8000,
        index: number(0x08, 0x10) % 64,
        base: number(0x08, 0x10) / 4096 * 4096,
        receive: number(0x10, 0x18),
        block_all: number(0x18, 0x20),
    }
}

/// The number that fields get, each within its bits.
pub fn number(groups: Groups) -> u8 {
    let clash = groups.num_group > groups.max_group || groups.enable == 1 && groups.index < 12;
    if clash { 13 } else { 0 }
}

/// Asked for at an offset, a capability gets this number and these fields, or 0 for each where it is refused; by
/// `raw::multicast` and by `Groups::read`.
pub fn reads(space: &[u8], at: usize, number: u8, fields: Groups) {
    let space = lent(space);
    let guard = Groups { base: 0xA7A7, ..FOUR };
    let mut groups = Lent::new(&[guard], guard);
    let told = if number == 0 { fields } else { Groups::ZEROS };
    groups.expect(0, &[told]);
    assert_eq!(
        raw::multicast(space.part(), at, &mut groups.part_mut()[0]),
        number,
        "at {at:X}h"
    );
    groups.check("the fields");
    // Only C can name a place that is no `Offset`.
    if let Ok(offset) = at.try_into() {
        let safe = Groups::read(space.part(), offset).map_err(|refusal| refusal.number());
        assert_eq!(safe, if number == 0 { Ok(fields) } else { Err(number) }, "at {at:X}h");
    }
    space.check("the space");
}

/// What becomes of a packet, by `raw::judge` and by `judge`: both must agree, and leave the list as it is.
pub fn judged(ports: &[Groups], entering: usize, address: u64) -> raw::Judged {
    let ports = Lent::new(ports, FOUR);
    let answer = raw::judge(ports.part(), entering, address);
    let told = |verdict, group, ports| raw::Judged {
        ports,
        number: 0,
        verdict,
        group,
    };
    let safe = match judge(ports.part(), entering, address) {
        Ok(Judged::NoHit) => told(1, 0, 0),
        Ok(Judged::Dropped { group }) => told(2, group, 0),
        Ok(Judged::Leaves { group, ports }) => told(3, group, ports.bits()),
        Err(refusal) => raw::Judged {
            number: refusal.number(),
            ..raw::Judged::default()
        },
    };
    assert_eq!(safe, answer);
    ports.check("the list");
    answer
}

pub fn hits_nothing(ports: &[Groups], entering: usize, address: u64) {
    is(ports, entering, address, 1, 0, 0);
}

pub fn is_dropped(ports: &[Groups], entering: usize, address: u64, group: u8) {
    is(ports, entering, address, 2, group, 0);
}

pub fn leaves_by(ports: &[Groups], entering: usize, address: u64, group: u8, by: u32) {
    is(ports, entering, address, 3, group, by);
}

fn is(ports: &[Groups], entering: usize, address: u64, verdict: u8, group: u8, by: u32) {
    let expected = raw::Judged {
        ports: by,
        number: 0,
        verdict,
        group,
    };
    assert_eq!(
        judged(ports, entering, address),
        expected,
        "address {address:X}h by port {entering}"
    );
}

/// The list, the place or the fields of a port are refused: 1, and nothing else is told.
pub fn is_not_judged(ports: &[Groups], entering: usize, address: u64) {
    let expected = raw::Judged {
        number: 1,
        ..raw::Judged::default()
    };
    assert_eq!(judged(ports, entering, address), expected, "by port {entering}");
}

/// What becomes of a packet by a good list, worked out a second way, in 128 bits and by multiplication alone.
pub fn judged_again(ports: &[Groups], entering: usize, address: u64) -> raw::Judged {
    let port = ports[entering];
    let (base, size) = (u128::from(port.base), 1_u128 << port.index);
    let has = |group: &u64| {
        let start = base + u128::from(*group) * size;
        (start..start + size).contains(&address.into())
    };
    let hit = (0..=port.num_group).find(has).filter(|_| port.enable == 1);
    let Some(group) = hit else {
        return raw::Judged {
            verdict: 1,
            ..raw::Judged::default()
        };
    };
    let is_set = |register: u64| register & 1 << group != 0;
    let dropped = is_set(port.block_all);
    let receives = |place: &usize| !dropped && *place != entering && is_set(ports[*place].receive);
    raw::Judged {
        ports: (0..ports.len()).filter(receives).map(|place| 1 << place).sum(),
        number: 0,
        verdict: if dropped { 2 } else { 3 },
        group: group as u8,
    }
}

/// Numbers that look random and are the same in every run.
pub struct Drawn(pub u64);

impl Drawn {
    pub fn number(&mut self) -> u64 {
        self.0 = self
            .0
            .wrapping_mul(6_364_136_223_846_793_005)
            .wrapping_add(1_442_695_040_888_963_407);
        (self.0 ^ self.0 >> 31).wrapping_mul(0x9E37_79B9_7F4A_7C15) ^ self.0 >> 17
    }

    pub fn below(&mut self, limit: u64) -> u64 {
        (self.number() >> 8) % limit
    }

    /// Fields that a reading can give, often with all groups, and often near the largest address.
    pub fn groups(&mut self) -> Groups {
        let max_group = if self.below(2) == 0 { 63 } else { self.below(64) };
        let num_group = if self.below(2) == 0 {
            max_group
        } else {
            self.below(max_group + 1)
        };
        let enable = u64::from(self.below(8) != 0);
        let most = if self.below(2) == 0 { 24 } else { 64 };
        let base = match self.below(4) {
            0 => u64::MAX - self.below(0x10_0000),
            _ => self.number() >> self.below(52),
        };
        Groups {
            max_group,
            num_group,
            enable,
            index: 12 * enable + self.below(most - 12 * enable),
            base: base / 4096 * 4096,
            receive: self.number(),
            block_all: self.number() & self.number(),
        }
    }

    /// An address, most often at an edge of one of these groups.
    pub fn address(&mut self, groups: Groups) -> u64 {
        let near = self.below(5).wrapping_sub(2);
        match self.below(8) {
            0 => groups.base.wrapping_add(near),
            1 => u64::MAX - self.below(256),
            2 => self.number(),
            _ => groups
                .base
                .wrapping_add(self.below(65) << groups.index)
                .wrapping_add(near),
        }
    }
}
