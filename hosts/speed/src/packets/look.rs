//! The 16 KiB of a function's rules and marks, gone through once in plain C (look.c): looked at for a bit that is in both, which
//! no served packet can do without, and only read, which nothing that looks at them is quicker than. A board has one function
//! or two.

use super::Packets;
use super::setting::{Lent, Setting};
use crate::measure::Pass;
use crate::order;
use std::hint::black_box;

unsafe extern "C" {
    fn look_overlap(
        ordinary_rules: *const u8,
        ordinary_marks: *const u8,
        trusted_rules: *const u8,
        trusted_marks: *const u8,
    ) -> i32;
    fn look_read(
        ordinary_rules: *const u8,
        ordinary_marks: *const u8,
        trusted_rules: *const u8,
        trusted_marks: *const u8,
    ) -> u64;
}

/// Rules and marks of both spaces, in the order of look.c, each of the size that look.c takes for granted.
type Four = [Box<[u8; 4096]>; 4];

/// A function's rules and marks as they are lent.
fn as_lent(lent: &Lent) -> [&[u8; 4096]; 4] {
    let all = [
        &lent.ordinary_rules,
        &lent.ordinary_marks,
        &lent.trusted_rules,
        &lent.trusted_marks,
    ];
    all.map(|bytes| bytes.as_slice().try_into().expect("4,096 bytes"))
}

/// A function's rules and marks once more.
fn four(lent: &Lent) -> Four {
    as_lent(lent).map(|bytes| Box::new(*bytes))
}

/// Whether a bit is in the rules and in the marks of a space that is lent.
#[inline]
pub fn overlaps(lent: &Lent) -> bool {
    let [one, two, three, four] = as_lent(lent);
    // SAFETY: each has the 4,096 bytes that look.c reads, and nothing is written.
    unsafe { look_overlap(one.as_ptr(), two.as_ptr(), three.as_ptr(), four.as_ptr()) != 0 }
}

/// Whether a bit is in the rules and in the marks of a space.
#[inline(never)]
fn overlap([one, two, three, four]: &Four) -> u64 {
    // SAFETY: as above.
    unsafe { look_overlap(one.as_ptr(), two.as_ptr(), three.as_ptr(), four.as_ptr()) as u64 }
}

/// All words of eight bytes, added without carries.
#[inline(never)]
fn read([one, two, three, four]: &Four) -> u64 {
    // SAFETY: as above.
    unsafe { look_read(one.as_ptr(), two.as_ptr(), three.as_ptr(), four.as_ptr()) }
}

/// A look at the rules and marks of every function for every packet, which itself is not looked at.
fn pass<const FUNCTIONS: usize>(
    look: fn(&Four) -> u64,
    settings: [&Setting; FUNCTIONS],
    packets: &Packets,
    calls: usize,
) -> Pass {
    let functions = settings.map(|setting| four(&setting.lent));
    let look = black_box(look);
    order::pass(packets, calls, move |packet| {
        black_box(packet);
        for buffers in &functions {
            black_box(look(black_box(buffers)));
        }
    })
}

pub fn overlap_pass<const FUNCTIONS: usize>(settings: [&Setting; FUNCTIONS], packets: &Packets, calls: usize) -> Pass {
    pass(overlap, settings, packets, calls)
}

pub fn read_pass<const FUNCTIONS: usize>(settings: [&Setting; FUNCTIONS], packets: &Packets, calls: usize) -> Pass {
    pass(read, settings, packets, calls)
}

/// Whether both loops go over all bytes of a function that has no bit in rules and marks.
pub fn check(what: &str, setting: &Setting) -> Result<(), String> {
    let buffers = four(&setting.lent);
    let words = buffers.iter().flat_map(|bytes| bytes.chunks_exact(8));
    let sum = words.fold(0, |sum, word| {
        sum ^ u64::from_le_bytes(word.try_into().expect("eight bytes"))
    });
    if read(&buffers) != sum {
        return Err(format!("{what}: the reading in C does not read all bytes"));
    }
    if overlap(&buffers) != 0 {
        return Err(format!(
            "{what}: the look in C finds a bit in rules and marks that is none"
        ));
    }
    Ok(())
}

#[cfg(test)]
mod tests {
    use super::{check, four, overlap, read};
    use crate::packets::setting::Setting;
    use crate::random::Random;

    /// One bit in both, in any byte of either space, is found.
    #[test]
    fn the_look_goes_over_all_pairs() {
        let mut setting = Setting::drawn(&mut Random::seeded(1));
        assert_eq!(check("a drawn board", &setting), Ok(()));
        for at in 0..4096 {
            let marks = setting.lent.ordinary_marks[at];
            setting.lent.ordinary_marks[at] |= setting.lent.ordinary_rules[at];
            let is_both = setting.lent.ordinary_rules[at] != 0;
            assert_eq!(overlap(&four(&setting.lent)), is_both.into());
            setting.lent.ordinary_marks[at] = marks;
            let rules = setting.lent.trusted_rules[at];
            setting.lent.trusted_rules[at] |= setting.lent.trusted_marks[at];
            let is_both = setting.lent.trusted_marks[at] != 0;
            assert_eq!(overlap(&four(&setting.lent)), is_both.into());
            setting.lent.trusted_rules[at] = rules;
        }
    }

    /// Another byte anywhere gives another sum.
    #[test]
    fn the_reading_goes_over_all_bytes() {
        let mut setting = Setting::drawn(&mut Random::seeded(2));
        let before = read(&four(&setting.lent));
        for at in 0..4096 {
            setting.lent.trusted_marks[at] ^= 0x10;
            assert_eq!(read(&four(&setting.lent)), before ^ 0x10 << (8 * (at % 8)));
            setting.lent.trusted_marks[at] ^= 0x10;
        }
    }
}
