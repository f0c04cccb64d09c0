//! A board on each side: one function of the same shape for each, which is not inlined and makes one call to the side.

use super::setting::{Lent, Setting};
use crate::raw;
use second::model;

/// The number, and how many bytes of the reply are written.
#[derive(Clone, Copy, Debug, PartialEq, Eq)]
pub struct Answer {
    pub number: u8,
    pub length: usize,
}

/// A board that a side keeps between packets.
pub trait Board {
    const NAME: &'static str;
    fn new(setting: &Setting) -> Self;
    /// Serves one packet, and keeps the capture. Never inlined.
    fn serve(&mut self, packet: &[u8]) -> Answer;
    fn capture(&self) -> Option<(u8, u8)>;
    fn lent(&self) -> &Lent;
}

/// The library's board.
pub struct Library {
    description: raw::Description,
    capture: raw::Capture,
    lent: Lent,
}

pub fn description_of(setting: &Setting) -> raw::Description {
    raw::Description {
        function: setting.function,
        a: setting.a.into(),
        b: setting.b.into(),
        edition: setting.edition,
    }
}

pub fn capture_of(setting: &Setting) -> raw::Capture {
    let captured = |(bus, device)| raw::Capture {
        captured: 1,
        bus,
        device,
    };
    setting.capture.map_or_else(raw::Capture::default, captured)
}

impl Board for Library {
    const NAME: &'static str = "library";

    fn new(setting: &Setting) -> Self {
        Self {
            description: description_of(setting),
            capture: capture_of(setting),
            lent: setting.lent.clone(),
        }
    }

    #[inline(never)]
    fn serve(&mut self, packet: &[u8]) -> Answer {
        let Self {
            description,
            capture,
            lent,
        } = self;
        let Lent {
            ordinary,
            ordinary_rules,
            ordinary_marks,
            trusted,
            trusted_rules,
            trusted_marks,
            reply,
        } = lent;
        let served = raw::serve(
            *description,
            *capture,
            ordinary,
            ordinary_rules,
            ordinary_marks,
            trusted,
            trusted_rules,
            trusted_marks,
            packet,
            reply,
        );
        *capture = served.capture;
        Answer {
            number: served.number,
            length: served.length,
        }
    }

    fn capture(&self) -> Option<(u8, u8)> {
        (self.capture.captured != 0).then_some((self.capture.bus, self.capture.device))
    }

    fn lent(&self) -> &Lent {
        &self.lent
    }
}

/// The board of the independent implementation in safe Rust.
pub struct SafeRust {
    description: model::Description,
    capture: Option<(u8, u8)>,
    lent: Lent,
}

impl Board for SafeRust {
    const NAME: &'static str = "safe Rust";

    fn new(setting: &Setting) -> Self {
        let Setting {
            function,
            a,
            b,
            edition,
            capture,
            ref lent,
        } = *setting;
        Self {
            description: model::Description {
                function,
                a: a.into(),
                b: b.into(),
                edition,
            },
            capture,
            lent: lent.clone(),
        }
    }

    #[inline(never)]
    fn serve(&mut self, packet: &[u8]) -> Answer {
        let Self {
            description,
            capture,
            lent,
        } = self;
        let Lent {
            ordinary,
            ordinary_rules,
            ordinary_marks,
            trusted,
            trusted_rules,
            trusted_marks,
            reply,
        } = lent;
        let served = model::serve(
            *description,
            *capture,
            ordinary,
            ordinary_rules,
            ordinary_marks,
            trusted,
            trusted_rules,
            trusted_marks,
            packet,
            reply,
        );
        *capture = served.capture;
        Answer {
            number: served.number,
            length: served.length,
        }
    }

    fn capture(&self) -> Option<(u8, u8)> {
        self.capture
    }

    fn lent(&self) -> &Lent {
        &self.lent
    }
}
