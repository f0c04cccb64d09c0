//! In a build with debug assertions and overflow checks, both are there. Other builds do not have these tests.

use std::hint::black_box;

use super::space::word;

#[test]
#[should_panic(expected = "offset == word_place(offset)")]
fn what_the_model_states_is_asserted() {
    word(&[0; 4096], black_box(0x102));
}

#[test]
#[should_panic(expected = "overflow")]
fn overflow_is_noticed() {
    let most = black_box(u8::MAX);
    black_box(most + black_box(1));
}
