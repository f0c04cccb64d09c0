//! What a call of `route` has that could decide its answer, in the order in which it is looked for.

use super::departure::is_trusted;
use super::packet_causes::packet_causes;
use super::port_list::{PortList, Verdict};
use crate::generate::RouteCase;

/// A place in the order: "The list's 1, that 2 and document 01's checks 3 to 6 come first, in that order."
#[derive(Clone, Copy, Debug, PartialEq, Eq)]
pub enum Stage {
    List,
    Room,
    Short,
    TypeCode,
    PacketLength,
    Field,
    Type0,
    NoPort,
    NoSupport,
}

/// All of them, in their order.
const STAGES: [Stage; 9] = [
    Stage::List,
    Stage::Room,
    Stage::Short,
    Stage::TypeCode,
    Stage::PacketLength,
    Stage::Field,
    Stage::Type0,
    Stage::NoPort,
    Stage::NoSupport,
];

impl Stage {
    /// The number that is given there. A bus of no port has none: the verdict is UR.
    pub const fn number(self) -> u8 {
        match self {
            Self::NoPort => 0,
            Self::List => 1,
            Self::Room => 2,
            Self::Short => 3,
            Self::TypeCode | Self::Type0 | Self::NoSupport => 4,
            Self::PacketLength => 5,
            Self::Field => 6,
        }
    }
}

/// The stages at which a call has something. Of a packet that is too short or has another type code, what depends on
/// that is not looked for. The last three leave each other out.
pub fn stages_of(case: &RouteCase, list: &PortList<'_>) -> Vec<Stage> {
    let [short, type_code, _, packet_length, fields @ ..] = packet_causes(&case.packet, false);
    let own = if short || type_code {
        None
    } else {
        routers_own(&case.packet.bytes, list)
    };
    let has = |stage| match stage {
        Stage::List => list.verdict != Verdict::Good,
        Stage::Room => case.leaving_length < 20,
        Stage::Short => short,
        Stage::TypeCode => type_code,
        Stage::PacketLength => packet_length,
        Stage::Field => fields.contains(&true),
        last => own == Some(last),
    };
    STAGES.into_iter().filter(|&stage| has(stage)).collect()
}

/// What keeps a packet with one of the six type codes from leaving, by what the router adds to document 01.
fn routers_own(bytes: &[u8; 24], list: &PortList<'_>) -> Option<Stage> {
    match list.port_of(bytes[8]) {
        _ if bytes[0] & 0x3F == 0x04 => Some(Stage::Type0),
        None => Some(Stage::NoPort),
        Some((_, port)) if is_trusted(bytes) && !port.tcs => Some(Stage::NoSupport),
        Some(_) => None,
    }
}

/// The pairs that can come together, in the order of the group's names.
const TOGETHER: [[Stage; 2]; 23] = [
    [Stage::List, Stage::Room],
    [Stage::List, Stage::Short],
    [Stage::List, Stage::TypeCode],
    [Stage::List, Stage::PacketLength],
    [Stage::List, Stage::Field],
    [Stage::List, Stage::Type0],
    [Stage::List, Stage::NoPort],
    [Stage::List, Stage::NoSupport],
    [Stage::Room, Stage::Short],
    [Stage::Room, Stage::TypeCode],
    [Stage::Room, Stage::PacketLength],
    [Stage::Room, Stage::Field],
    [Stage::Room, Stage::Type0],
    [Stage::Room, Stage::NoPort],
    [Stage::Room, Stage::NoSupport],
    [Stage::TypeCode, Stage::Field],
    [Stage::PacketLength, Stage::Field],
    [Stage::PacketLength, Stage::Type0],
    [Stage::PacketLength, Stage::NoPort],
    [Stage::PacketLength, Stage::NoSupport],
    [Stage::Field, Stage::Type0],
    [Stage::Field, Stage::NoPort],
    [Stage::Field, Stage::NoSupport],
];

/// The place of a pair among them.
pub fn together(first: Stage, second: Stage) -> usize {
    let place = TOGETHER.iter().position(|&pair| pair == [first, second]);
    place.expect("two stages that come together are one of the pairs")
}
