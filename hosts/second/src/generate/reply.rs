//! Which bytes a reply has, written for the generator and the classes apart from the model's own: of either first byte
//! the places where it is not free.

/// The first byte of a reply with data.
pub const WITH_DATA: u8 = 0x4A;
/// The first byte of a reply without data.
pub const WITHOUT_DATA: u8 = 0x0A;
/// The status byte of Unsupported Request.
pub const UNSUPPORTED: u8 = 0x20;

/// The places behind the first byte that are not free.
pub const FIXED_PLACES: [usize; 6] = [1, 2, 3, 6, 7, 11];

/// Whether a reply with a first byte, which is one of the two, has a byte at a place.
pub const fn has_there(first: u8, place: usize, byte: u8) -> bool {
    match (place, first) {
        (1 | 2 | 11, _) | (3, WITHOUT_DATA) => byte == 0x00,
        (3, _) => byte == 0x01,
        (6, WITHOUT_DATA) => byte == 0x00 || byte == UNSUPPORTED,
        (6, _) => byte == 0x00,
        (7, _) => byte == 0x04,
        _ => true,
    }
}

/// The length of a reply with a first byte, which is one of the two.
pub const fn reply_length(first: u8) -> usize {
    if first == WITH_DATA { 16 } else { 12 }
}
