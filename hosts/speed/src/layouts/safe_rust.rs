//! Layouts in safe Rust, from document 02's words: it tests all that the library tests.

/// What a structure is, and how many bytes it has.
#[derive(Clone, Copy)]
pub struct Structure {
    pub id: u16,
    pub version: u16,
    pub length: u16,
}

impl Structure {
    fn is_good(&self) -> bool {
        self.id != 0 && self.version <= 15 && (4..=3840).contains(&self.length)
    }

    fn length(&self) -> usize {
        self.length.into()
    }
}

fn are_good(structures: &[Structure]) -> bool {
    (1..=960).contains(&structures.len()) && structures.iter().all(Structure::is_good)
}

/// Puts an offset for each structure into the room, or gives the number of the refusal.
pub fn plan(structures: &[Structure], room: &mut [u16]) -> Result<(), u8> {
    if !are_good(structures) {
        return Err(1);
    }
    let room = room.get_mut(..structures.len()).ok_or(2)?;
    let (last, before) = structures.split_last().ok_or(1)?;
    let rounded = |structure: &Structure| structure.length().next_multiple_of(4);
    if before.iter().map(rounded).sum::<usize>() + last.length() > 3840 {
        return Err(14);
    }
    let mut at = 0x100;
    for (offset, structure) in room.iter_mut().zip(structures) {
        *offset = at as u16;
        at += rounded(structure);
    }
    Ok(())
}

/// Whether the offsets are accepted, or the number of the refusal.
pub fn check(structures: &[Structure], offsets: &[u16]) -> Result<(), u8> {
    if !are_good(structures) {
        return Err(1);
    }
    if offsets.len() != structures.len() || offsets[0] != 0x100 {
        return Err(18);
    }
    let mut free = 0;
    for (structure, &offset) in structures.iter().zip(offsets) {
        let at = usize::from(offset);
        let end = at + structure.length();
        if at % 4 != 0 || at < free || end > 0x1000 {
            return Err(18);
        }
        free = end;
    }
    Ok(())
}

/// Writes the header of each structure at its offset, or gives the number of the refusal.
pub fn write(structures: &[Structure], offsets: &[u16], space: &mut [u8]) -> Result<(), u8> {
    let space: &mut [u8; 4096] = space.try_into().map_err(|_| 1)?;
    check(structures, offsets)?;
    for (place, (structure, &offset)) in structures.iter().zip(offsets).enumerate() {
        let next = offsets.get(place + 1).map_or(0, |&next| u32::from(next));
        let header = u32::from(structure.id) | u32::from(structure.version) << 16 | next << 20;
        space[offset.into()..][..4].copy_from_slice(&header.to_le_bytes());
    }
    Ok(())
}
