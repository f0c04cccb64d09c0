//! Multicast in safe Rust, from document 02's words: it tests all that the library tests.

/// The fields of a port's capability.
#[derive(Clone, Copy)]
pub struct Port {
    pub max_group: u64,
    pub num_group: u64,
    pub enable: u64,
    pub index: u64,
    pub base: u64,
    pub receive: u64,
    pub block_all: u64,
}

/// What becomes of a packet.
pub enum Judged {
    NoHit,
    Dropped(u8),
    Leaves(u8, u32),
}

impl Port {
    /// Whether Num Group is over Max Group, or an enabled one's index under 12.
    fn clashes(&self) -> bool {
        self.num_group > self.max_group || self.enable != 0 && self.index < 12
    }

    /// Whether a reading can give these fields.
    fn can_be_read(&self) -> bool {
        self.max_group < 64 && self.enable < 2 && self.index < 64 && self.base % 4096 == 0 && !self.clashes()
    }

    /// The group that an address hits, if any.
    fn hit(&self, address: u64) -> Option<u64> {
        let group = address.checked_sub(self.base)? >> self.index;
        (self.enable != 0 && group <= self.num_group).then_some(group)
    }
}

/// Reads the capability at an offset, or gives the number of the refusal.
pub fn read(space: &[u8], at: usize) -> Result<Port, u8> {
    let space: &[u8; 4096] = space.try_into().map_err(|_| 1)?;
    if at % 4 != 0 || !(0x100..=0xFFC).contains(&at) {
        return Err(1);
    }
    let left = &space[at..];
    let header: &[u8; 4] = left.first_chunk().ok_or(1)?;
    if u32::from_le_bytes(*header) & 0x000F_FFFF != 0x0001_0012 {
        return Err(8);
    }
    let port = fields(left.first_chunk().ok_or(9)?);
    if port.clashes() { Err(13) } else { Ok(port) }
}

fn fields(bytes: &[u8; 0x28]) -> Port {
    let long = |at: usize| u64::from_le_bytes(std::array::from_fn(|place| bytes[at + place]));
    let window = long(0x08);
    Port {
        max_group: u64::from(bytes[0x04] & 63),
        num_group: u64::from(bytes[0x06] & 63),
        enable: u64::from(bytes[0x07] >> 7),
        index: window & 63,
        base: window & !0xFFF,
        receive: long(0x10),
        block_all: long(0x18),
    }
}

/// Judges an address, or gives the number of the refusal.
pub fn judge(ports: &[Port], entering: usize, address: u64) -> Result<Judged, u8> {
    if ports.len() > 32 || !ports.iter().all(Port::can_be_read) {
        return Err(1);
    }
    let port = ports.get(entering).ok_or(1)?;
    let Some(group) = port.hit(address) else {
        return Ok(Judged::NoHit);
    };
    if port.block_all >> group & 1 == 1 {
        return Ok(Judged::Dropped(group as u8));
    }
    let receive = ports
        .iter()
        .rev()
        .fold(0, |set, port| set << 1 | (port.receive >> group & 1) as u32);
    Ok(Judged::Leaves(group as u8, receive & !(1 << entering)))
}
