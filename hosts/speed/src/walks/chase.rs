//! The bare chase: the least work that following a list's pointers takes. It checks nothing and writes no list.
//!
//! Both functions answer how many headers are reached before a pointer 0, or the limit where there are more. Both are
//! calls of their own, as the sides' entries are, and hold the program's only unchecked indexing.

/// Follows words: the pointer, its bottom two bits dropped, is the number of a word in bits 31 to 22 of a header.
#[inline(never)]
pub fn words(space: &[u8; 4096], start: usize, limit: usize) -> usize {
    let words: *const [u8; 4] = space.as_ptr().cast();
    let mut number = start / 4 % 1024;
    let mut count = 0;
    while number != 0 && count != limit {
        // SAFETY: the number is below 1,024, and the space has 1,024 words.
        let header = unsafe { words.add(number).read() };
        number = (u32::from_le_bytes(header) >> 22) as usize;
        count += 1;
    }
    count
}

/// Follows bytes: the pointer is the second byte of a header.
#[inline(never)]
pub fn bytes(space: &[u8; 4096], start: usize, limit: usize) -> usize {
    let nexts = space[1..].as_ptr();
    let mut at = start & 0xFC;
    let mut count = 0;
    while at != 0 && count != limit {
        // SAFETY: the offset is at most 0FCh, and 4,095 bytes lie behind the first one.
        let next = unsafe { nexts.add(at).read() };
        at = usize::from(next & 0xFC);
        count += 1;
    }
    count
}
