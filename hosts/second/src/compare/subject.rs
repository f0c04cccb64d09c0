//! What is compared with the model: anything with the library's entries, and the linked library itself.

use thawribbon::raw::{
    self, Alternate, Capture, Captures, Description, Dvsec, Function, Groups, Heard, Judged, Part, Parts, Port, Routed,
    Served, Structure, Walked, Written,
};

/// All that a call of `serve` is given.
pub struct ServeCall<'lent> {
    pub description: Description,
    pub kept: Capture,
    pub ordinary: &'lent mut [u8],
    pub ordinary_rules: &'lent [u8],
    pub ordinary_marks: &'lent [u8],
    pub trusted: &'lent mut [u8],
    pub trusted_rules: &'lent [u8],
    pub trusted_marks: &'lent [u8],
    pub packet: &'lent [u8],
    pub reply: &'lent mut [u8],
}

/// All that a call of `serve_pair` is given of one function.
pub struct SideCall<'lent> {
    pub function: u8,
    pub a: u32,
    pub b: u32,
    pub kept: Capture,
    pub ordinary: &'lent mut [u8],
    pub ordinary_rules: &'lent [u8],
    pub ordinary_marks: &'lent [u8],
    pub trusted: &'lent mut [u8],
    pub trusted_rules: &'lent [u8],
    pub trusted_marks: &'lent [u8],
}

/// All that a call of `serve_pair` is given: of the primary, of the alternate, and of both.
pub struct DuoCall<'lent> {
    pub edition: u32,
    pub sides: [SideCall<'lent>; 2],
    pub packet: &'lent [u8],
    pub reply: &'lent mut [u8],
}

/// The answer of `serve_pair`, with the captures of the primary and of the alternate.
#[derive(Clone, Copy, Debug, Default, PartialEq, Eq)]
pub struct DuoServed {
    pub length: usize,
    pub number: u8,
    pub kept: [Capture; 2],
}

/// The entries that are compared. None has a standing answer here, so that no entry of a subject is left out unseen.
pub trait Subject {
    fn serve(&mut self, call: ServeCall<'_>) -> Served;
    fn reset(&mut self, kept: Capture) -> Capture;
    fn walk_compatible(&mut self, space: &[u8], room: &mut [u16]) -> Walked;
    fn walk_extended(&mut self, space: &[u8], room: &mut [u16]) -> Walked;
    fn walk_trusted(&mut self, space: &[u8], room: &mut [u16]) -> Walked;
    fn dvsec(&mut self, space: &[u8], at: usize) -> Dvsec;
    fn dvsec_body(&mut self, space: &[u8], at: usize) -> Part;
    fn dual_bdf(&mut self, space: &[u8], at: usize) -> Alternate;
    fn route(&mut self, ports: &[Port], packet: &[u8], leaving: &mut [u8]) -> Routed;
    fn write_request(&mut self, parts: Parts, buffer: &mut [u8]) -> Written;
    fn read_completion(&mut self, completion: &[u8]) -> Heard;
    fn multicast(&mut self, space: &[u8], at: usize, groups: &mut Groups) -> u8;
    fn judge(&mut self, ports: &[Groups], entering: usize, address: u64) -> Judged;
    fn plan_layout(&mut self, structures: &[Structure], room: &mut [u16]) -> u8;
    fn check_layout(&mut self, structures: &[Structure], offsets: &[u16]) -> u8;
    fn write_layout(&mut self, structures: &[Structure], offsets: &[u16], space: &mut [u8]) -> u8;
    fn serve_pair(&mut self, call: DuoCall<'_>) -> DuoServed;
    fn reset_pair(&mut self, kept: [Capture; 2]) -> [Capture; 2];
}

/// The linked library.
pub struct Library;

impl Subject for Library {
    fn serve(&mut self, call: ServeCall<'_>) -> Served {
        raw::serve(
            call.description,
            call.kept,
            call.ordinary,
            call.ordinary_rules,
            call.ordinary_marks,
            call.trusted,
            call.trusted_rules,
            call.trusted_marks,
            call.packet,
            call.reply,
        )
    }

    fn reset(&mut self, kept: Capture) -> Capture {
        raw::reset(kept)
    }

    fn walk_compatible(&mut self, space: &[u8], room: &mut [u16]) -> Walked {
        raw::walk_compatible(space, room)
    }

    fn walk_extended(&mut self, space: &[u8], room: &mut [u16]) -> Walked {
        raw::walk_extended(space, room)
    }

    fn walk_trusted(&mut self, space: &[u8], room: &mut [u16]) -> Walked {
        raw::walk_trusted(space, room)
    }

    fn dvsec(&mut self, space: &[u8], at: usize) -> Dvsec {
        raw::dvsec(space, at)
    }

    fn dvsec_body(&mut self, space: &[u8], at: usize) -> Part {
        raw::dvsec_body(space, at)
    }

    fn dual_bdf(&mut self, space: &[u8], at: usize) -> Alternate {
        raw::dual_bdf(space, at)
    }

    fn route(&mut self, ports: &[Port], packet: &[u8], leaving: &mut [u8]) -> Routed {
        raw::route(ports, packet, leaving)
    }

    fn write_request(&mut self, parts: Parts, buffer: &mut [u8]) -> Written {
        raw::write_request(parts, buffer)
    }

    fn read_completion(&mut self, completion: &[u8]) -> Heard {
        raw::read_completion(completion)
    }

    fn multicast(&mut self, space: &[u8], at: usize, groups: &mut Groups) -> u8 {
        raw::multicast(space, at, groups)
    }

    fn judge(&mut self, ports: &[Groups], entering: usize, address: u64) -> Judged {
        raw::judge(ports, entering, address)
    }

    fn plan_layout(&mut self, structures: &[Structure], room: &mut [u16]) -> u8 {
        raw::plan_layout(structures, room)
    }

    fn check_layout(&mut self, structures: &[Structure], offsets: &[u16]) -> u8 {
        raw::check_layout(structures, offsets)
    }

    fn write_layout(&mut self, structures: &[Structure], offsets: &[u16], space: &mut [u8]) -> u8 {
        raw::write_layout(structures, offsets, space)
    }

    fn serve_pair(&mut self, call: DuoCall<'_>) -> DuoServed {
        let [primary, alternate] = call.sides;
        let kept = captures([primary.kept, alternate.kept]);
        let served = raw::serve_pair(
            call.edition,
            function(&primary),
            function(&alternate),
            kept,
            primary.ordinary,
            primary.ordinary_rules,
            primary.ordinary_marks,
            primary.trusted,
            primary.trusted_rules,
            primary.trusted_marks,
            alternate.ordinary,
            alternate.ordinary_rules,
            alternate.ordinary_marks,
            alternate.trusted,
            alternate.trusted_rules,
            alternate.trusted_marks,
            call.packet,
            call.reply,
        );
        DuoServed {
            length: served.length,
            number: served.number,
            kept: [served.kept.primary, served.kept.alternate],
        }
    }

    fn reset_pair(&mut self, kept: [Capture; 2]) -> [Capture; 2] {
        let after = raw::reset_pair(captures(kept));
        [after.primary, after.alternate]
    }
}

/// What the library is told of one function beside its buffers and its capture.
const fn function(side: &SideCall<'_>) -> Function {
    Function {
        function: side.function,
        a: side.a,
        b: side.b,
    }
}

const fn captures([primary, alternate]: [Capture; 2]) -> Captures {
    Captures { primary, alternate }
}
