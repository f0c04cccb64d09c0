//! The merge of a write, on one little-endian word, and the enables that it is under.

/// For each of the 16 enable patterns, FFh in every enabled byte: "enable bit 0 is the byte at the lowest address".
const ENABLED: [u32; 16] = [
    0x0000_0000,
    0x0000_00FF,
    0x0000_FF00,
    0x0000_FFFF,
    0x00FF_0000,
    0x00FF_00FF,
    0x00FF_FF00,
    0x00FF_FFFF,
    0xFF00_0000,
    0xFF00_00FF,
    0xFF00_FF00,
    0xFF00_FFFF,
    0xFFFF_0000,
    0xFFFF_00FF,
    0xFFFF_FF00,
    0xFFFF_FFFF,
];

/// The bits of the bytes that a pattern of four enables opens.
pub(super) const fn enabled(enables: u8) -> u32 {
    ENABLED[(enables & 0x0F) as usize]
}

/// "For an enabled byte, a write takes the data bit where the rule bit is 1 and keeps the old bit where it is 0. A byte
/// not enabled stays."
pub fn merged(old: u32, rule: u32, data: u32, enables: u8) -> u32 {
    let taken = rule & enabled(enables);
    let new = old & !taken | data & taken;
    debug_assert_eq!(new, merged_bit_by_bit(old, rule, data, enables));
    new
}

/// The same sentence once more, as it stands: each bit of each byte by itself. Only stated: no answer rests on it.
fn merged_bit_by_bit(old: u32, rule: u32, data: u32, enables: u8) -> u32 {
    let bit = |word: u32, place: u32| word >> place & 1;
    let chosen = |place: u32| {
        let byte = place / 8;
        let source = if enables >> byte & 1 == 1 && bit(rule, place) == 1 {
            data
        } else {
            old
        };
        bit(source, place)
    };
    (0..32).map(|place| chosen(place) << place).sum()
}

#[cfg(test)]
mod tests {
    use super::{merged, merged_bit_by_bit};

    /// A word of ones but for one bit, or of zeros but for one bit.
    fn words(place: u32) -> [u32; 4] {
        [0, u32::MAX, 1 << place, !(1 << place)]
    }

    #[test]
    fn each_bit_comes_from_where_document_01_says() {
        for place in 0..32 {
            for (enables, word) in (0..16).flat_map(|enables| words(place).map(|word| (enables, word))) {
                for (rule, data) in words(place)
                    .iter()
                    .flat_map(|&rule| words(place).map(|data| (rule, data)))
                {
                    let expected = merged_bit_by_bit(word, rule, data, enables);
                    assert_eq!(merged(word, rule, data, enables), expected);
                }
            }
        }
    }
}
