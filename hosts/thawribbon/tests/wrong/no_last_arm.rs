//! A `match` on a refusal with an arm for each number and no last arm: rustc has to refuse it, since more are to come.
//!
//! tests/rust.sh compiles this; it is no test of the package, and is never run.
use thawribbon::Refusal;

fn main() {}

pub fn is_of_a_packet(refusal: Refusal) -> bool {
    match refusal {
        Refusal::ShortPacket | Refusal::UnknownType | Refusal::WrongLength | Refusal::WrongField => true,
        Refusal::BadDescription | Refusal::NoRoom | Refusal::BelowFloor { .. } | Refusal::ComesBack { .. } => false,
        Refusal::OtherStructure | Refusal::WrongExtent | Refusal::NotOneFunction | Refusal::WrongGroups => false,
        Refusal::NoLayout | Refusal::NotAccepted => false,
    }
}
