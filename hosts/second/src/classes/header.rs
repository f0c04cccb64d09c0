//! The fields of a header, read byte by byte.

use crate::model::List;

/// A header. The compatible list's have no version.
#[derive(Clone, Copy)]
pub struct Header {
    pub id: usize,
    pub version: usize,
    pub pointer: usize,
}

impl Header {
    /// The header of a list at an offset of its space.
    pub fn read(list: List, space: &[u8], at: usize) -> Self {
        let byte = |place| usize::from(space[at + place]);
        match list {
            List::Compatible => Self {
                id: byte(0),
                version: 0,
                pointer: pointer(list, space, at),
            },
            List::Extended | List::Trusted => Self {
                id: byte(0) + 0x100 * byte(1),
                version: byte(2) % 16,
                pointer: pointer(list, space, at),
            },
        }
    }

    /// Whether there is nothing in it: no ID, no version and no pointer.
    pub const fn is_zero(self) -> bool {
        self.id == 0 && self.version == 0 && self.pointer == 0
    }
}

/// The pointer of a header, without the rest of it.
pub fn pointer(list: List, space: &[u8], at: usize) -> usize {
    let byte = |place| usize::from(space[at + place]);
    match list {
        List::Compatible => byte(1),
        List::Extended | List::Trusted => byte(2) / 16 + 16 * byte(3),
    }
}

#[cfg(test)]
mod tests {
    use super::Header;
    use crate::model::List;

    fn fields(list: List, bytes: [u8; 4]) -> (usize, usize, usize, bool) {
        let header = Header::read(list, &bytes, 0);
        (header.id, header.version, header.pointer, header.is_zero())
    }

    #[test]
    fn each_byte_is_where_document_01_has_it() {
        let bytes = [0x23, 0x45, 0x67, 0x89];
        assert_eq!(fields(List::Compatible, bytes), (0x23, 0, 0x45, false));
        for list in [List::Extended, List::Trusted] {
            assert_eq!(fields(list, bytes), (0x4523, 0x7, 0x896, false));
        }
    }

    #[test]
    fn a_header_is_zero_where_none_of_its_bits_is_set() {
        for (list, bits) in [(List::Compatible, 16), (List::Extended, 32), (List::Trusted, 32)] {
            assert!(fields(list, [0; 4]).3);
            assert!((0..bits).all(|bit| !fields(list, (1_u32 << bit).to_le_bytes()).3));
        }
        assert!(fields(List::Compatible, [0, 0, 0xFF, 0xFF]).3);
    }
}
