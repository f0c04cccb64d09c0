//! The rows of a switch's multicast: capabilities that are read, and addresses that are judged by 1, 8 or 32 ports.

mod addresses;
mod capabilities;
mod kind;
mod safe_rust;

use crate::random::Random;
use crate::raw;
use crate::row::Row;
use safe_rust::Port;

/// The rows of both, after both sides gave equal answers to all inputs.
pub fn rows() -> Result<Vec<Row>, String> {
    let mut rows = capabilities::rows()?;
    rows.extend(addresses::rows()?);
    Ok(rows)
}

/// Fields that a reading gives: enabled, with a window that ends before the largest address.
fn draw_groups(random: &mut Random) -> raw::Groups {
    let max_group = random.below(64) as u64;
    raw::Groups {
        max_group,
        num_group: random.below(max_group as usize + 1) as u64,
        enable: 1,
        index: 12 + random.below(40) as u64,
        base: random.number() >> 2 & !0xFFF,
        receive: random.number(),
        block_all: 0,
    }
}

/// The fields in the form of each side.
fn for_safe_rust(groups: &raw::Groups) -> Port {
    Port {
        max_group: groups.max_group,
        num_group: groups.num_group,
        enable: groups.enable,
        index: groups.index,
        base: groups.base,
        receive: groups.receive,
        block_all: groups.block_all,
    }
}

fn in_library_form(port: Port) -> raw::Groups {
    raw::Groups {
        max_group: port.max_group,
        num_group: port.num_group,
        enable: port.enable,
        index: port.index,
        base: port.base,
        receive: port.receive,
        block_all: port.block_all,
    }
}
