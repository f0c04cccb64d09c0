//! The merge on each side: functions of one signature, none of them inlined, so that each is one call away.

use super::Register;
use second::model;

/// Merges data into a register: the register, its rules, its marks, the data and the enables.
pub type Merge = extern "C" fn(&mut Register, &Register, &Register, &Register, u8);

pub const LIBRARY: Merge = trial_merge;
pub const SAFE_RUST: Merge = safe_rust;
pub const MASKS: Merge = masks_write;

// SAFETY: the one of crates/trials and the one of peer.c take pointers to four bytes each, write to the first and keep none
// of them.
unsafe extern "C" {
    safe fn trial_merge(register: &mut Register, rules: &Register, marks: &Register, data: &Register, enables: u8);
    safe fn masks_write(register: &mut Register, rules: &Register, marks: &Register, data: &Register, enables: u8);
}

/// A marked bit whose data bit is 1 is written as 0: the model's merge does that too.
#[inline(never)]
extern "C" fn safe_rust(register: &mut Register, rules: &Register, marks: &Register, data: &Register, enables: u8) {
    let [old, rules, marks, data] = [*register, *rules, *marks, *data].map(u32::from_le_bytes);
    let written = model::merged(old, rules, data, enables);
    *register = model::merged(written, marks & data, 0, enables).to_le_bytes();
}
