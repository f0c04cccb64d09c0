//! The board of two functions of the C loop over mask bytes in peer.c, which says what it does not check; and the same with a
//! look at all rules and marks of both functions before every packet.

use super::board::{Captures, Pair};
use super::two::Two;
use crate::packets::{Answer, Kept, Lent};

/// The struct of peer.c.
#[repr(C)]
struct Function {
    board: *mut Kept,
    config: *mut u8,
    wmask: *const u8,
    w1cmask: *const u8,
    trusted: *mut u8,
    trusted_wmask: *const u8,
    trusted_w1cmask: *const u8,
}

impl Function {
    #[inline(always)]
    fn new(kept: &mut Kept, lent: &mut Lent) -> Self {
        Self {
            board: kept,
            config: lent.ordinary.as_mut_ptr(),
            wmask: lent.ordinary_rules.as_ptr(),
            w1cmask: lent.ordinary_marks.as_ptr(),
            trusted: lent.trusted.as_mut_ptr(),
            trusted_wmask: lent.trusted_rules.as_ptr(),
            trusted_w1cmask: lent.trusted_marks.as_ptr(),
        }
    }
}

/// The primary, the alternate, a packet and a reply.
type Serve = unsafe extern "C" fn(&Function, &Function, *const u8, *mut u8) -> usize;

unsafe extern "C" {
    fn masks_serve_pair(primary: &Function, alternate: &Function, packet: *const u8, reply: *mut u8) -> usize;
    fn masks_serve_pair_looking(primary: &Function, alternate: &Function, packet: *const u8, reply: *mut u8) -> usize;
}

/// The C loop's board.
pub struct Masks {
    kept: [Kept; 2],
    lent: [Lent; 2],
    reply: Vec<u8>,
}

impl Masks {
    /// Has one of the two functions of peer.c serve a packet.
    #[inline(always)]
    fn serve_by(&mut self, serve: Serve, packet: &[u8]) -> Answer {
        let [primary_kept, alternate_kept] = &mut self.kept;
        let [one, other] = &mut self.lent;
        let primary = Function::new(primary_kept, one);
        let alternate = Function::new(alternate_kept, other);
        debug_assert!(packet.len() >= if packet[0] & 0x40 == 0 { 12 } else { 16 });
        // SAFETY: `Kept::new` has tested the sizes of all that is lent, every offset in a packet is a multiple of 4 below
        // 4,096, and safe Rust was found to serve the packet before this side got it, so its length fits its type.
        let length = unsafe { serve(&primary, &alternate, packet.as_ptr(), self.reply.as_mut_ptr()) };
        Answer { number: 0, length }
    }
}

impl Pair for Masks {
    const NAME: &'static str = "C masks";

    fn new(two: &Two) -> Self {
        Self {
            kept: [Kept::new(&two.primary), Kept::new(&two.alternate)],
            lent: two.lent(),
            reply: two.reply.clone(),
        }
    }

    /// Only for packets that safe Rust serves: their lengths fit their types.
    #[inline(never)]
    fn serve(&mut self, packet: &[u8]) -> Answer {
        self.serve_by(masks_serve_pair, packet)
    }

    fn captures(&self) -> Captures {
        self.kept.each_ref().map(Kept::capture)
    }

    fn lent(&self) -> [&Lent; 2] {
        self.lent.each_ref()
    }

    fn reply(&self) -> &[u8] {
        &self.reply
    }
}

/// The same board, which looks at all rules and marks before it serves.
pub struct Looking(Masks);

impl Pair for Looking {
    const NAME: &'static str = "C masks with the look";

    fn new(two: &Two) -> Self {
        Self(Masks::new(two))
    }

    /// As [`Masks`] does.
    #[inline(never)]
    fn serve(&mut self, packet: &[u8]) -> Answer {
        self.0.serve_by(masks_serve_pair_looking, packet)
    }

    fn captures(&self) -> Captures {
        self.0.captures()
    }

    fn lent(&self) -> [&Lent; 2] {
        self.0.lent()
    }

    fn reply(&self) -> &[u8] {
        self.0.reply()
    }
}
