//! The constants of thawribbon.h, under the same names without their prefix, and its `thawribbon_no_marks`.

/// The version of this crate, and of the archive that it links.
pub const VERSION: &str = env!("CARGO_PKG_VERSION");

/// The bytes of a space, of its rules and of its marks.
pub const SPACE: usize = 4096;

/// The marks of a space that has no bits that are cleared by writing 1. Any number of spaces may have them.
pub static NO_MARKS: [u8; SPACE] = [0; SPACE];

/// The bytes that a reply must have; 12 or 16 of them are written.
pub const REPLY: usize = 16;

/// The bytes that the buffer for what leaves a switch must have; 12, 16 or 20 of them are written.
pub const LEAVING: usize = 20;

/// The most ports that a list can have.
pub const PORTS: usize = 32;

/// The most groups that a Multicast capability can have: group 0 to group 63.
pub const GROUPS: usize = 64;

/// The ID by which an extended list names a Multicast capability.
pub const MULTICAST_ID: u16 = 0x0012;

/// The bytes that hold any request that is written: a write has 16, and a read 12.
pub const REQUEST: usize = 16;

/// Where four data bytes are: in a packet that writes, and in a completion of 16 bytes.
pub const DATA: usize = 12;

/// Byte 0 of a Type 0 read without its bit 7, as the next five are. What a board does where bit 7 is set is said by its
/// [`Edition`](crate::Edition).
pub const TYPE0_READ: u8 = 0x04;

/// Byte 0 of a Type 0 write.
pub const TYPE0_WRITE: u8 = 0x44;

/// Byte 0 of a Type 1 read.
pub const TYPE1_READ: u8 = 0x05;

/// Byte 0 of a Type 1 write.
pub const TYPE1_WRITE: u8 = 0x45;

/// Byte 0 of a trusted read.
pub const TRUSTED_READ: u8 = 0x1B;

/// Byte 0 of a trusted write.
pub const TRUSTED_WRITE: u8 = 0x5B;

/// The number of [`Edition::One`](crate::Edition::One), for [`raw::Description`](crate::raw::Description).
pub const EDITION_1: u32 = 1;

/// The number of [`Edition::Two`](crate::Edition::Two), for [`raw::Description`](crate::raw::Description).
pub const EDITION_2: u32 = 2;

/// Where a completion has its status byte.
pub const STATUS: usize = 6;

/// The status byte where the access was done.
pub const STATUS_SUCCESSFUL: u8 = 0x00;

/// The status byte of an Unsupported Request: the access was not done.
pub const STATUS_UNSUPPORTED: u8 = 0x20;

/// The most offsets that a compatible list can have.
pub const COMPATIBLE_MAXIMUM: usize = 48;

/// The most offsets that an extended list can have.
pub const EXTENDED_MAXIMUM: usize = 960;

/// The most offsets that a trusted list can have.
pub const TRUSTED_MAXIMUM: usize = 1022;
