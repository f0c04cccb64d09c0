//! The order in which a side goes through its inputs: random, and another in every pass, so that no branch predictor
//! learns it. All sides have the same orders.

use crate::measure::Pass;
use crate::random::Random;
use std::rc::Rc;
use std::sync::LazyLock;

/// The calls of a pass divide this number.
const PICKS: usize = 8192;

/// One long random sequence. Each pass takes the part that follows the one before.
static SEQUENCE: LazyLock<Vec<u8>> = LazyLock::new(|| Random::seeded(0).bytes(PICKS));

/// A pass that gives a side so many of its inputs, of which there are 2, 4, 8 or so on up to 256.
pub fn pass<Input: 'static>(inputs: &Rc<[Input]>, calls: usize, mut call: impl FnMut(&Input) + 'static) -> Pass {
    assert!(inputs.len().is_power_of_two() && inputs.len() <= 256 && PICKS % calls == 0);
    let inputs = inputs.clone();
    let sequence: &'static [u8] = &SEQUENCE;
    let mut parts = sequence.chunks_exact(calls).cycle();
    Box::new(move || {
        for &pick in parts.next().unwrap_or_default() {
            call(&inputs[usize::from(pick) & (inputs.len() - 1)]);
        }
    })
}
