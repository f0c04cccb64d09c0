//! The model behind the library's entries and types: what every subject is compared with.
//!
//! A capture is nothing where `captured` is 0, whatever the other two bytes hold. A refusal hands back the capture byte
//! for byte; number 0 hands back 0, 0, 0 while nothing is captured, else 1 with the bus and the device.
//!
//! A packet that leaves a router does so by `leaves` 1, the port's place and the length; else all three are 0.
//!
//! A completion says by 1 that it is a success with data, by 2 one without, by 3 Unsupported Request, and nothing by 0.
//! The data are 0 where there are none.
//!
//! The numbers of a Multicast capability are written with every answer. Of an address it is told by 1 that there is no
//! hit, by 2 that the packet is dropped, by 3 that it leaves, and nothing by 0; the group is 0 with 0 and 1, and there are
//! ports with 3 only.
//!
//! Of a layout only the number is answered: the proposal is in the room, and the headers are in the space.
//!
//! Of two functions, each capture is handed back as that of one is: also that of the function that a packet is not for.

use thawribbon::raw::{
    Alternate, Capture, Dvsec, Groups, Heard, Judged, Part, Parts, Port, Routed, Served, Structure, Walked, Written,
};

use super::subject::{DuoCall, DuoServed, ServeCall, SideCall, Subject};
use crate::model::{self, List, Said, Verdict};

/// The model as a subject.
pub struct Reference;

/// What a capture of the library's means.
pub fn meaning(capture: Capture) -> Option<(u8, u8)> {
    (capture.captured != 0).then_some((capture.bus, capture.device))
}

/// A capture as the library hands it back with number 0.
pub fn plain(capture: Option<(u8, u8)>) -> Capture {
    capture.map_or(Capture::default(), |(bus, device)| Capture {
        captured: 1,
        bus,
        device,
    })
}

fn model_port(port: &Port) -> model::Port {
    model::Port {
        secondary: port.secondary,
        subordinate: port.subordinate,
        tcs: port.tcs,
    }
}

const fn model_parts(parts: Parts) -> model::Parts {
    model::Parts {
        kind: parts.kind,
        requester: parts.requester,
        tag: parts.tag,
        bus: parts.bus,
        device: parts.device,
        function: parts.function,
        offset: parts.offset,
        enables: parts.enables,
        data: parts.data,
    }
}

const fn model_groups(groups: &Groups) -> model::Groups {
    model::Groups {
        max_group: groups.max_group,
        num_group: groups.num_group,
        enable: groups.enable,
        index: groups.index,
        base: groups.base,
        receive: groups.receive,
        block_all: groups.block_all,
    }
}

fn model_structures(structures: &[Structure]) -> Vec<model::Structure> {
    let model_structure = |structure: &Structure| model::Structure {
        id: structure.id,
        version: structure.version,
        length: structure.length,
    };
    structures.iter().map(model_structure).collect()
}

fn model_function(side: SideCall<'_>) -> model::Function<'_> {
    model::Function {
        number: side.function,
        a: side.a,
        b: side.b,
        kept: meaning(side.kept),
        ordinary: side.ordinary,
        ordinary_rules: side.ordinary_rules,
        ordinary_marks: side.ordinary_marks,
        trusted: side.trusted,
        trusted_rules: side.trusted_rules,
        trusted_marks: side.trusted_marks,
    }
}

fn walk(list: List, space: &[u8], room: &mut [u16]) -> Walked {
    let walked = model::walk(list, space, room);
    Walked {
        count: walked.count,
        number: walked.number,
        place: walked.place,
    }
}

impl Subject for Reference {
    fn serve(&mut self, call: ServeCall<'_>) -> Served {
        let given = call.description;
        let served = model::serve(
            model::Description {
                function: given.function,
                a: given.a,
                b: given.b,
                edition: given.edition,
            },
            meaning(call.kept),
            call.ordinary,
            call.ordinary_rules,
            call.ordinary_marks,
            call.trusted,
            call.trusted_rules,
            call.trusted_marks,
            call.packet,
            call.reply,
        );
        let capture = if served.number == 0 {
            plain(served.capture)
        } else {
            call.kept
        };
        Served {
            length: served.length,
            number: served.number,
            capture,
        }
    }

    fn reset(&mut self, _: Capture) -> Capture {
        plain(None)
    }

    fn walk_compatible(&mut self, space: &[u8], room: &mut [u16]) -> Walked {
        walk(List::Compatible, space, room)
    }

    fn walk_extended(&mut self, space: &[u8], room: &mut [u16]) -> Walked {
        walk(List::Extended, space, room)
    }

    fn walk_trusted(&mut self, space: &[u8], room: &mut [u16]) -> Walked {
        walk(List::Trusted, space, room)
    }

    fn dvsec(&mut self, space: &[u8], at: usize) -> Dvsec {
        let record = model::dvsec(space, at);
        Dvsec {
            number: record.number,
            revision: record.revision,
            vendor: record.vendor,
            id: record.id,
            length: record.length,
        }
    }

    /// The place is told from where the model's slice begins.
    fn dvsec_body(&mut self, space: &[u8], at: usize) -> Part {
        let body = model::dvsec_body(space, at);
        if model::dvsec(space, at).number != 0 {
            return Part {
                start: 0,
                length: body.len(),
            };
        }
        Part {
            start: body.as_ptr().addr() - space.as_ptr().addr(),
            length: body.len(),
        }
    }

    fn dual_bdf(&mut self, space: &[u8], at: usize) -> Alternate {
        let record = model::dual_bdf(space, at);
        Alternate {
            number: record.number,
            function: record.function,
            device: record.device,
        }
    }

    fn route(&mut self, ports: &[Port], packet: &[u8], leaving: &mut [u8]) -> Routed {
        let ports: Vec<model::Port> = ports.iter().map(model_port).collect();
        let routed = model::route(&ports, packet, leaving);
        Routed {
            length: routed.length,
            number: routed.number,
            leaves: routed.port.is_some().into(),
            port: routed.port.unwrap_or(0),
        }
    }

    fn write_request(&mut self, parts: Parts, buffer: &mut [u8]) -> Written {
        let written = model::write_request(&model_parts(parts), buffer);
        Written {
            length: written.length,
            number: written.number,
        }
    }

    fn read_completion(&mut self, completion: &[u8]) -> Heard {
        let heard = model::read_completion(completion);
        let (said, data) = match heard.said {
            None => (0, [0; 4]),
            Some(Said::WithData(data)) => (1, data),
            Some(Said::WithoutData) => (2, [0; 4]),
            Some(Said::Unsupported) => (3, [0; 4]),
        };
        Heard {
            number: heard.number,
            said,
            completer: heard.completer,
            requester: heard.requester,
            tag: heard.tag,
            data,
        }
    }

    fn multicast(&mut self, space: &[u8], at: usize, groups: &mut Groups) -> u8 {
        let read = model::multicast(space, at);
        *groups = Groups {
            max_group: read.groups.max_group,
            num_group: read.groups.num_group,
            enable: read.groups.enable,
            index: read.groups.index,
            base: read.groups.base,
            receive: read.groups.receive,
            block_all: read.groups.block_all,
        };
        read.number
    }

    fn judge(&mut self, ports: &[Groups], entering: usize, address: u64) -> Judged {
        let ports: Vec<model::Groups> = ports.iter().map(model_groups).collect();
        let judged = model::judge(&ports, entering, address);
        let (verdict, group, ports) = match judged.verdict {
            None => (0, 0, 0),
            Some(Verdict::NoHit) => (1, 0, 0),
            Some(Verdict::Dropped { group }) => (2, group, 0),
            Some(Verdict::Leaves { group, ports }) => (3, group, ports),
        };
        Judged {
            ports,
            number: judged.number,
            verdict,
            group,
        }
    }

    fn plan_layout(&mut self, structures: &[Structure], room: &mut [u16]) -> u8 {
        model::plan_layout(&model_structures(structures), room)
    }

    fn check_layout(&mut self, structures: &[Structure], offsets: &[u16]) -> u8 {
        model::check_layout(&model_structures(structures), offsets)
    }

    fn write_layout(&mut self, structures: &[Structure], offsets: &[u16], space: &mut [u8]) -> u8 {
        model::write_layout(&model_structures(structures), offsets, space)
    }

    fn serve_pair(&mut self, call: DuoCall<'_>) -> DuoServed {
        let kept = call.sides.each_ref().map(|side| side.kept);
        let functions = call.sides.map(model_function);
        let served = model::serve_pair(call.edition, functions, call.packet, call.reply);
        DuoServed {
            length: served.length,
            number: served.number,
            kept: if served.number == 0 {
                served.captures.map(plain)
            } else {
                kept
            },
        }
    }

    fn reset_pair(&mut self, _: [Capture; 2]) -> [Capture; 2] {
        [plain(None); 2]
    }
}
