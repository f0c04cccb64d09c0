//! The rows of the merge by itself: four bytes of a register under the rules, the marks, the data and the enables of a
//! write.
//!
//! The library exports no merge. The library's side here is the same proved function, from an archive that is built for
//! this program alone (crates/trials).

mod sides;

use crate::measure::Pass;
use crate::order;
use crate::random::Random;
use crate::row::{Peer, Row};
use sides::Merge;
use std::hint::black_box;
use std::rc::Rc;

/// How many registers a row has, with a write for each, and how many writes are made in a pass.
const WRITES: usize = 64;
const CALLS: usize = 256;

/// The four bytes of a register.
type Register = [u8; 4];

/// A write to one of the registers.
struct Write {
    register: usize,
    rules: Register,
    marks: Register,
    data: Register,
    enables: u8,
}

/// The rows, after all sides left equal registers after all writes.
pub fn rows() -> Result<Vec<Row>, String> {
    Ok(vec![
        row("merge alone", 4000, |random| random.byte() & 0x0F)?,
        row("merge alone, all bytes enabled", 4001, |_| 0x0F)?,
    ])
}

fn row(what: &str, seed: u64, enables: fn(&mut Random) -> u8) -> Result<Row, String> {
    let mut random = Random::seeded(seed);
    let registers: Vec<Register> = (0..WRITES).map(|_| drawn(&mut random)).collect();
    let writes: Rc<[Write]> = (0..WRITES)
        .map(|register| write(register, &mut random, enables))
        .collect();
    let sides = [(Peer::SafeRust, sides::SAFE_RUST), (Peer::Masks, sides::MASKS)];
    for (peer, side) in sides {
        check(what, peer, side, &registers, &writes)?;
    }
    let peers = sides.map(|(peer, side)| (peer, pass(side, &registers, &writes)));
    let library = pass(sides::LIBRARY, &registers, &writes);
    Ok(Row::new(what, CALLS, library, peers.into()))
}

/// A random write to a register, of whose bits none is in rules and marks.
fn write(register: usize, random: &mut Random, enables: fn(&mut Random) -> u8) -> Write {
    let (rules, marks) = (drawn(random), drawn(random));
    Write {
        register,
        rules,
        marks: [0, 1, 2, 3].map(|place| marks[place] & !rules[place]),
        data: drawn(random),
        enables: enables(random),
    }
}

fn drawn(random: &mut Random) -> Register {
    (random.number() as u32).to_le_bytes()
}

/// Writes of a side to registers of its own, one after the other.
fn pass(merge: Merge, registers: &[Register], writes: &Rc<[Write]>) -> Pass {
    let mut registers = registers.to_vec();
    let merge = black_box(merge);
    order::pass(writes, CALLS, move |write| {
        let Write {
            rules,
            marks,
            data,
            enables,
            ..
        } = black_box(write);
        merge(black_box(&mut registers[write.register]), rules, marks, data, *enables);
    })
}

/// Whether a side leaves every register as the library does, after its write with any enables: the lowest four bits count.
fn check(what: &str, peer: Peer, side: Merge, registers: &[Register], writes: &[Write]) -> Result<(), String> {
    for (write, enables) in writes
        .iter()
        .flat_map(|write| (0..=u8::MAX).map(move |enables| (write, enables)))
    {
        let Write {
            register,
            rules,
            marks,
            data,
            ..
        } = write;
        let old = registers[*register];
        let [found, expected] = [side, sides::LIBRARY].map(|merge| {
            let mut left = old;
            merge(&mut left, rules, marks, data, enables);
            left
        });
        if found != expected {
            return Err(format!(
                "{what}: {old:02X?} under rules {rules:02X?}, marks {marks:02X?}, data {data:02X?}, enables \
                 {enables:02X}: library {expected:02X?}, {peer:?} {found:02X?}"
            ));
        }
    }
    Ok(())
}
