//! The names of the classes of the Multicast capability, by group.

pub const MULTICAST_CAUSES: &[&str] = &[
    "space's size",
    "unaligned",
    "below 100h",
    "above FFCh",
    "near 2^32",
    "near 2^64",
    "ID",
    "version",
    "fewer than 28h bytes left",
    "Num Group over Max Group, not enabled",
    "Num Group over Max Group, enabled",
    "index under 12 while enabled",
];

/// The forms of a capability that is read, in the order of their names.
#[derive(Clone, Copy)]
pub enum MulticastForm {
    OneGroupOfOne,
    AllGroupsOfAll,
    AsMany,
    OneFewer,
    LeastBase,
    HighestBase,
    LowIndex,
    LeastIndex,
    HighestIndex,
    Lowest,
    Highest,
    PointedOut,
}

pub const MULTICAST_FORMS: &[&str] = &[
    "Num Group and Max Group 0",
    "Num Group and Max Group 63",
    "Num Group as Max Group, between",
    "Num Group one under Max Group",
    "base 0",
    "base FFFF_FFFF_FFFF_F000h",
    "index under 12, not enabled",
    "index 12, enabled",
    "index 63, enabled",
    "at 100h",
    "at FD8h",
    "with all bits 1 that belong to no field",
];
