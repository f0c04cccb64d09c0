//! The asking side in safe Rust, from document 02's words: it tests all that the library tests.

/// The parts of a request.
#[derive(Clone, Copy)]
pub struct Parts {
    pub kind: u8,
    pub requester: [u8; 2],
    pub tag: u8,
    pub bus: u8,
    pub device: u8,
    pub function: u8,
    pub offset: u32,
    pub enables: u8,
    pub data: [u8; 4],
}

/// What a completion says.
pub enum Said {
    Data([u8; 4]),
    Done,
    Unsupported,
}

/// A completion that was read back.
pub struct Completion {
    pub completer: [u8; 2],
    pub requester: [u8; 2],
    pub tag: u8,
    pub said: Said,
}

/// Writes a request: how many bytes, or the number of the refusal.
pub fn write_request(parts: Parts, buffer: &mut [u8]) -> Result<usize, u8> {
    let writes = match parts.kind {
        0x04 | 0x05 | 0x1B => false,
        0x44 | 0x45 | 0x5B => true,
        _ => return Err(1),
    };
    let is_offset = parts.offset <= 0xFFC && parts.offset % 4 == 0;
    if parts.device > 31 || parts.function > 7 || !is_offset || parts.enables > 15 {
        return Err(1);
    }
    let header = header(parts);
    if writes {
        let room: &mut [u8; 16] = buffer.first_chunk_mut().ok_or(2)?;
        room[..12].copy_from_slice(&header);
        room[12..].copy_from_slice(&parts.data);
        Ok(16)
    } else {
        *buffer.first_chunk_mut().ok_or(2)? = header;
        Ok(12)
    }
}

fn header(parts: Parts) -> [u8; 12] {
    let [high, low] = (parts.offset as u16).to_be_bytes();
    let [requester_high, requester_low] = parts.requester;
    let target = parts.device << 3 | parts.function;
    [
        parts.kind,
        0,
        0,
        1,
        requester_high,
        requester_low,
        parts.tag,
        parts.enables,
        parts.bus,
        target,
        high,
        low,
    ]
}

/// Reads a completion back, or gives the number of the refusal.
pub fn read_completion(bytes: &[u8]) -> Result<Completion, u8> {
    let header: &[u8; 12] = bytes.first_chunk().ok_or(3)?;
    let said = match header[0] {
        0x4A => Said::Data(*bytes.last_chunk().filter(|_| bytes.len() == 16).ok_or(5)?),
        0x0A if bytes.len() != 12 => return Err(5),
        0x0A if header[6] == 0x20 => Said::Unsupported,
        0x0A => Said::Done,
        _ => return Err(4),
    };
    let status = if let Said::Unsupported = said { 0x20 } else { 0x00 };
    let words = u8::from(header[0] == 0x4A);
    if header[1..4] != [0, 0, words] || header[6..8] != [status, 0x04] || header[11] != 0 {
        return Err(6);
    }
    Ok(Completion {
        completer: [header[4], header[5]],
        requester: [header[8], header[9]],
        tag: header[10],
        said,
    })
}
