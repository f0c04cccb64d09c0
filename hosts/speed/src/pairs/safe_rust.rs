//! A board of two functions in safe Rust, from the documents' words: it tests all that the library tests, and takes a packet
//! apart once.

/// One of the two: its number, and the places of its Device Correlation word.
#[derive(Clone, Copy)]
pub struct Function {
    pub number: u8,
    pub a: u32,
    pub b: u32,
}

/// A captured bus and device, or nothing.
pub type Capture = Option<(u8, u8)>;

/// The spaces of a function.
pub struct Spaces<'lent> {
    pub ordinary: Space<'lent>,
    pub trusted: Space<'lent>,
}

/// A space with its rules and its marks.
pub struct Space<'lent> {
    pub bytes: &'lent mut [u8],
    pub rules: &'lent [u8],
    pub marks: &'lent [u8],
}

/// Serves a packet by the function that it is for, the primary being the first, and answers how many bytes of the reply are
/// written, or the number of the refusal. It is compiled into its caller, so that nothing that is lent has to be passed.
#[inline(always)]
pub fn serve(
    edition: u32,
    [primary, alternate]: [Function; 2],
    captures: &mut [Capture; 2],
    [primary_spaces, alternate_spaces]: [Spaces; 2],
    packet: &[u8],
    reply: &mut [u8],
) -> Result<usize, u8> {
    if primary.number == alternate.number || !matches!(edition, 1 | 2) {
        return Err(1);
    }
    let [primary_capture, alternate_capture] = captures;
    let primary = Side::new(primary, primary_capture, primary_spaces)?;
    let alternate = Side::new(alternate, alternate_capture, alternate_spaces)?;
    if primary.is_doubly_marked() || alternate.is_doubly_marked() {
        return Err(1);
    }
    let reply = reply.first_chunk_mut().ok_or(2)?;
    let request = Request::read(edition, packet)?;
    let is_for_alternate = request.function == alternate.number && request.target != Target::Type1;
    let mut side = if is_for_alternate { alternate } else { primary };
    let done = side.access(&request);
    Ok(side.complete(&request, done, reply))
}

/// Where a request goes.
#[derive(Clone, Copy, PartialEq, Eq)]
enum Target {
    Type0,
    Type1,
    Trusted,
}

/// A packet without a fault.
struct Request {
    target: Target,
    /// The data of a write.
    data: Option<u32>,
    poisoned: bool,
    requester: [u8; 2],
    tag: u8,
    enables: u8,
    bus: u8,
    device: u8,
    function: u8,
    offset: usize,
}

impl Request {
    fn read(edition: u32, packet: &[u8]) -> Result<Self, u8> {
        let (header, tail) = packet.split_first_chunk::<12>().ok_or(3)?;
        let code = if edition == 1 { header[0] & 0x7F } else { header[0] };
        let target = match code & !0x40 {
            0x04 => Target::Type0,
            0x05 => Target::Type1,
            0x1B => Target::Trusted,
            _ => return Err(4),
        };
        let writes = code & 0x40 != 0;
        let has_digest = header[2] & 0x80 != 0;
        if tail.len() != 4 * (usize::from(writes) + usize::from(has_digest)) {
            return Err(5);
        }
        // TC, Attr and the last enables are 0, and Length is 1.
        let first = u32::from_le_bytes([header[0], header[1], header[2], header[3]]);
        if first & 0xFF33_7000 != 0x0100_0000 || header[7] > 15 {
            return Err(6);
        }
        Ok(Self {
            target,
            data: tail
                .first_chunk()
                .filter(|_| writes)
                .map(|data| u32::from_le_bytes(*data)),
            poisoned: header[2] & 0x40 != 0,
            requester: [header[4], header[5]],
            tag: header[6],
            enables: header[7],
            bus: header[8],
            device: header[9] >> 3,
            function: header[9] & 7,
            offset: usize::from(u16::from_be_bytes([header[10], header[11]]) & 0xFFC),
        })
    }
}

/// What became of a request.
enum Done {
    Read(u32),
    Written,
    Unsupported,
}

/// A function whose numbers are in their ranges and whose buffers have their sizes.
struct Side<'lent> {
    number: u8,
    a: usize,
    b: usize,
    capture: &'lent mut Capture,
    ordinary: Whole<'lent>,
    trusted: Whole<'lent>,
}

impl<'lent> Side<'lent> {
    #[inline(always)]
    fn new(function: Function, capture: &'lent mut Capture, spaces: Spaces<'lent>) -> Result<Self, u8> {
        let Function { number, a, b } = function;
        let are_in_range = number <= 7
            && (0x104..=0xFFC).contains(&a)
            && (0x00C..=0xFFC).contains(&b)
            && (a | b) % 4 == 0
            && capture.is_none_or(|(_, device)| device <= 31);
        if !are_in_range {
            return Err(1);
        }
        Ok(Self {
            number,
            a: a as usize,
            b: b as usize,
            capture,
            ordinary: spaces.ordinary.whole().ok_or(1)?,
            trusted: spaces.trusted.whole().ok_or(1)?,
        })
    }

    /// Whether a bit is in the rules and the marks of a space. Of several ways to look the quickest that was found: both spaces
    /// at once, and no way out before the end, so that many bytes are taken at a time.
    fn is_doubly_marked(&self) -> bool {
        let pairs = self.ordinary.doubly_marked().zip(self.trusted.doubly_marked());
        pairs.fold(0, |all, (ordinary, trusted)| all | ordinary | trusted) != 0
    }

    /// Does what is asked for, if it is supported.
    #[inline(always)]
    fn access(&mut self, request: &Request) -> Done {
        let is_addressed = match request.target {
            Target::Type0 => true,
            Target::Type1 => false,
            Target::Trusted => *self.capture == Some((request.bus, request.device)),
        };
        let is_poisoned_write = request.poisoned && request.data.is_some();
        if !is_addressed || request.function != self.number || is_poisoned_write {
            return Done::Unsupported;
        }
        let offset = request.offset;
        match (request.target, request.data) {
            (Target::Trusted, None) => Done::Read(self.trusted.word(offset)),
            (_, None) if offset == self.a => Done::Read(self.trusted.word(self.b)),
            (_, None) => Done::Read(self.ordinary.word(offset)),
            (Target::Trusted, Some(data)) => {
                self.trusted.write(offset, data, request.enables);
                Done::Written
            }
            (_, Some(data)) => {
                *self.capture = Some((request.bus, request.device));
                if offset != self.a {
                    self.ordinary.write(offset, data, request.enables);
                }
                Done::Written
            }
        }
    }

    /// Writes the completion, and answers its length.
    #[inline(always)]
    fn complete(&self, request: &Request, done: Done, reply: &mut [u8; 16]) -> usize {
        let (bus, device) = self.capture.unwrap_or_default();
        let [first, second] = request.requester;
        let (head, status, data) = match done {
            Done::Read(data) => ([0x4A, 0, 0, 1], 0x00, Some(data)),
            Done::Written => ([0x0A, 0, 0, 0], 0x00, None),
            Done::Unsupported => ([0x0A, 0, 0, 0], 0x20, None),
        };
        reply[..4].copy_from_slice(&head);
        reply[4..8].copy_from_slice(&[bus, device << 3 | self.number, status, 4]);
        reply[8..12].copy_from_slice(&[first, second, request.tag, 0]);
        data.map_or(12, |data| {
            reply[12..].copy_from_slice(&data.to_le_bytes());
            16
        })
    }
}

/// A space whose three buffers have 4,096 bytes each.
struct Whole<'lent> {
    bytes: &'lent mut [u8; 4096],
    rules: &'lent [u8; 4096],
    marks: &'lent [u8; 4096],
}

impl<'lent> Space<'lent> {
    #[inline(always)]
    fn whole(self) -> Option<Whole<'lent>> {
        Some(Whole {
            bytes: self.bytes.try_into().ok()?,
            rules: self.rules.try_into().ok()?,
            marks: self.marks.try_into().ok()?,
        })
    }
}

/// The bytes that a pattern of enables opens, as the bits of a word.
const OPEN: [u32; 16] = {
    let mut open = [0; 16];
    let mut enables = 0;
    while enables < 16 {
        let mut byte = 0;
        while byte < 4 {
            if enables >> byte & 1 == 1 {
                open[enables] |= 0xFF << (8 * byte);
            }
            byte += 1;
        }
        enables += 1;
    }
    open
};

/// The word at an offset that is a multiple of 4 and below 1000h.
fn word(space: &[u8; 4096], offset: usize) -> u32 {
    let at = offset & 0xFFC;
    u32::from_le_bytes([space[at], space[at + 1], space[at + 2], space[at + 3]])
}

impl Whole<'_> {
    /// The bits of each byte that are in rules and marks.
    fn doubly_marked(&self) -> impl Iterator<Item = u8> {
        self.rules.iter().zip(self.marks).map(|(rule, mark)| rule & mark)
    }

    fn word(&self, offset: usize) -> u32 {
        word(self.bytes, offset)
    }

    /// Takes enabled data bits where a rule is 1, and clears marked bits where they are 1. No bit is both.
    fn write(&mut self, offset: usize, data: u32, enables: u8) {
        let open = OPEN[usize::from(enables & 15)];
        let rule = word(self.rules, offset) & open;
        let mark = word(self.marks, offset) & open;
        let new = self.word(offset) & !(rule | mark & data) | data & rule;
        let at = offset & 0xFFC;
        self.bytes[at..at + 4].copy_from_slice(&new.to_le_bytes());
    }
}
