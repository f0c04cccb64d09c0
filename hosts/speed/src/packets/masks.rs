//! The board of the C loop over mask bytes in peer.c, which says what it does not check; and the same with a look at all
//! rules and marks before every packet.

use super::board::{Answer, Board};
use super::setting::{Lent, Setting};

/// The struct of peer.c.
#[repr(C)]
pub struct Kept {
    a: u32,
    b: u32,
    function: u8,
    captured: u8,
    bus: u8,
    device: u8,
}

impl Kept {
    /// Stops where a size is not what the C code takes for granted.
    pub fn new(setting: &Setting) -> Self {
        let Setting {
            function,
            a,
            b,
            edition: _,
            capture,
            ref lent,
        } = *setting;
        let spaces = [
            &lent.ordinary,
            &lent.ordinary_rules,
            &lent.ordinary_marks,
            &lent.trusted,
            &lent.trusted_rules,
            &lent.trusted_marks,
        ];
        assert!(spaces.iter().all(|space| space.len() == 4096) && lent.reply.len() >= 16 && a <= 0xFFC && b <= 0xFFC);
        let (bus, device) = capture.unwrap_or_default();
        Self {
            a: a.into(),
            b: b.into(),
            function,
            captured: capture.is_some().into(),
            bus,
            device,
        }
    }

    pub fn capture(&self) -> Option<(u8, u8)> {
        (self.captured != 0).then_some((self.bus, self.device))
    }
}

/// The board, its ordinary space with rules and marks, its trusted space with the same, a packet and a reply.
type Serve = unsafe extern "C" fn(
    &mut Kept,
    *mut u8,
    *const u8,
    *const u8,
    *mut u8,
    *const u8,
    *const u8,
    *const u8,
    *mut u8,
) -> usize;

unsafe extern "C" {
    fn masks_serve(
        board: &mut Kept,
        config: *mut u8,
        wmask: *const u8,
        w1cmask: *const u8,
        trusted: *mut u8,
        trusted_wmask: *const u8,
        trusted_w1cmask: *const u8,
        packet: *const u8,
        reply: *mut u8,
    ) -> usize;
    fn masks_serve_looking(
        board: &mut Kept,
        config: *mut u8,
        wmask: *const u8,
        w1cmask: *const u8,
        trusted: *mut u8,
        trusted_wmask: *const u8,
        trusted_w1cmask: *const u8,
        packet: *const u8,
        reply: *mut u8,
    ) -> usize;
}

/// The C loop's board.
pub struct Masks {
    kept: Kept,
    lent: Lent,
}

impl Masks {
    /// Has one of the two functions serve a packet.
    #[inline(always)]
    fn serve_by(&mut self, serve: Serve, packet: &[u8]) -> Answer {
        let Lent {
            ordinary,
            ordinary_rules,
            ordinary_marks,
            trusted,
            trusted_rules,
            trusted_marks,
            reply,
        } = &mut self.lent;
        debug_assert!(packet.len() >= if packet[0] & 0x40 == 0 { 12 } else { 16 });
        // SAFETY: `Kept::new` has tested the sizes of all that is lent, every offset in a packet is a multiple of 4 below
        // 4,096, and safe Rust was found to serve the packet before this side got it, so its length fits its type.
        let length = unsafe {
            serve(
                &mut self.kept,
                ordinary.as_mut_ptr(),
                ordinary_rules.as_ptr(),
                ordinary_marks.as_ptr(),
                trusted.as_mut_ptr(),
                trusted_rules.as_ptr(),
                trusted_marks.as_ptr(),
                packet.as_ptr(),
                reply.as_mut_ptr(),
            )
        };
        Answer { number: 0, length }
    }
}

impl Board for Masks {
    const NAME: &'static str = "C masks";

    fn new(setting: &Setting) -> Self {
        Self {
            kept: Kept::new(setting),
            lent: setting.lent.clone(),
        }
    }

    /// Only for packets that safe Rust serves: their lengths fit their types.
    #[inline(never)]
    fn serve(&mut self, packet: &[u8]) -> Answer {
        self.serve_by(masks_serve, packet)
    }

    fn capture(&self) -> Option<(u8, u8)> {
        self.kept.capture()
    }

    fn lent(&self) -> &Lent {
        &self.lent
    }
}

/// The same board, which looks at all rules and marks before it serves.
pub struct Looking(Masks);

impl Board for Looking {
    const NAME: &'static str = "C masks with the look";

    fn new(setting: &Setting) -> Self {
        Self(Masks::new(setting))
    }

    /// As [`Masks`] does.
    #[inline(never)]
    fn serve(&mut self, packet: &[u8]) -> Answer {
        self.0.serve_by(masks_serve_looking, packet)
    }

    fn capture(&self) -> Option<(u8, u8)> {
        self.0.capture()
    }

    fn lent(&self) -> &Lent {
        self.0.lent()
    }
}
