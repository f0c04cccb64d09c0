//! A subject whose entries are the model's but for those that a test puts in their place.

use second::compare::{
    DuoCall, DuoServed, Failure, Reference, ServeCall, Subject, Tally, run, run_doubled, run_repeated,
    run_two_functions,
};
use second::model::List;
use thawribbon::raw::{
    Alternate, Capture, Dvsec, Groups, Heard, Judged, Part, Parts, Port, Routed, Served, Structure, Walked, Written,
};

/// The seed of every run here.
const SEED: u64 = 20_050_701;
/// The calls within which a wrong subject must be caught, and a right one must not.
const CALLS: u64 = 150_000;
/// The calls that a right subject goes through: all, but with debug assertions the first of them, which are the same for each.
const RIGHT_CALLS: u64 = if cfg!(debug_assertions) { 30_000 } else { CALLS };
/// The calls of a subject that is about a board of two functions: as many of such calls as a run of [`CALLS`] has.
const CALLS_OF_TWO: u64 = 7_300;
/// The same of a subject that is about packets that are repeated.
const CALLS_OF_REPEATS: u64 = 3_800;

type ServeEntry = Box<dyn FnMut(ServeCall<'_>) -> Served>;
type ResetEntry = Box<dyn FnMut(Capture) -> Capture>;
type WalkEntry = Box<dyn FnMut(List, &[u8], &mut [u16]) -> Walked>;
type DvsecEntry = Box<dyn FnMut(&[u8], usize) -> Dvsec>;
type BodyEntry = Box<dyn FnMut(&[u8], usize) -> Part>;
type DualEntry = Box<dyn FnMut(&[u8], usize) -> Alternate>;
type RouteEntry = Box<dyn FnMut(&[Port], &[u8], &mut [u8]) -> Routed>;
type WriteEntry = Box<dyn FnMut(Parts, &mut [u8]) -> Written>;
type ReadEntry = Box<dyn FnMut(&[u8]) -> Heard>;
type MulticastEntry = Box<dyn FnMut(&[u8], usize, &mut Groups) -> u8>;
type JudgeEntry = Box<dyn FnMut(&[Groups], usize, u64) -> Judged>;
type PlanEntry = Box<dyn FnMut(&[Structure], &mut [u16]) -> u8>;
type CheckEntry = Box<dyn FnMut(&[Structure], &[u16]) -> u8>;
type LayEntry = Box<dyn FnMut(&[Structure], &[u16], &mut [u8]) -> u8>;
type DuoEntry = Box<dyn FnMut(DuoCall<'_>) -> DuoServed>;
type DuoResetEntry = Box<dyn FnMut([Capture; 2]) -> [Capture; 2]>;

/// The model, with entries that may be wrong.
pub struct Wrong {
    serve: ServeEntry,
    reset: ResetEntry,
    walk: WalkEntry,
    dvsec: DvsecEntry,
    body: BodyEntry,
    dual: DualEntry,
    route: RouteEntry,
    write: WriteEntry,
    read: ReadEntry,
    multicast: MulticastEntry,
    judge: JudgeEntry,
    plan: PlanEntry,
    check: CheckEntry,
    lay: LayEntry,
    duo: DuoEntry,
    duo_reset: DuoResetEntry,
}

impl Wrong {
    /// All entries are right.
    pub fn nothing() -> Self {
        Self {
            serve: Box::new(|call| Reference.serve(call)),
            reset: Box::new(|kept| Reference.reset(kept)),
            walk: Box::new(right_walk),
            dvsec: Box::new(|space, at| Reference.dvsec(space, at)),
            body: Box::new(|space, at| Reference.dvsec_body(space, at)),
            dual: Box::new(|space, at| Reference.dual_bdf(space, at)),
            route: Box::new(|ports, packet, leaving| Reference.route(ports, packet, leaving)),
            write: Box::new(|parts, buffer| Reference.write_request(parts, buffer)),
            read: Box::new(|completion| Reference.read_completion(completion)),
            multicast: Box::new(|space, at, groups| Reference.multicast(space, at, groups)),
            judge: Box::new(|ports, entering, address| Reference.judge(ports, entering, address)),
            plan: Box::new(|structures, room| Reference.plan_layout(structures, room)),
            check: Box::new(|structures, offsets| Reference.check_layout(structures, offsets)),
            lay: Box::new(|structures, offsets, space| Reference.write_layout(structures, offsets, space)),
            duo: Box::new(|call| Reference.serve_pair(call)),
            duo_reset: Box::new(|kept| Reference.reset_pair(kept)),
        }
    }

    pub fn serve(entry: impl FnMut(ServeCall<'_>) -> Served + 'static) -> Self {
        Self {
            serve: Box::new(entry),
            ..Self::nothing()
        }
    }

    pub fn reset(entry: impl FnMut(Capture) -> Capture + 'static) -> Self {
        Self {
            reset: Box::new(entry),
            ..Self::nothing()
        }
    }

    /// The same subject with another reset.
    pub fn and_reset(self, entry: impl FnMut(Capture) -> Capture + 'static) -> Self {
        Self {
            reset: Box::new(entry),
            ..self
        }
    }

    pub fn walk(entry: impl FnMut(List, &[u8], &mut [u16]) -> Walked + 'static) -> Self {
        Self {
            walk: Box::new(entry),
            ..Self::nothing()
        }
    }

    pub fn dvsec(entry: impl FnMut(&[u8], usize) -> Dvsec + 'static) -> Self {
        Self {
            dvsec: Box::new(entry),
            ..Self::nothing()
        }
    }

    pub fn body(entry: impl FnMut(&[u8], usize) -> Part + 'static) -> Self {
        Self {
            body: Box::new(entry),
            ..Self::nothing()
        }
    }

    pub fn dual(entry: impl FnMut(&[u8], usize) -> Alternate + 'static) -> Self {
        Self {
            dual: Box::new(entry),
            ..Self::nothing()
        }
    }

    pub fn route(entry: impl FnMut(&[Port], &[u8], &mut [u8]) -> Routed + 'static) -> Self {
        Self {
            route: Box::new(entry),
            ..Self::nothing()
        }
    }

    /// The same subject with another router.
    pub fn and_route(self, entry: impl FnMut(&[Port], &[u8], &mut [u8]) -> Routed + 'static) -> Self {
        Self {
            route: Box::new(entry),
            ..self
        }
    }

    pub fn write(entry: impl FnMut(Parts, &mut [u8]) -> Written + 'static) -> Self {
        Self {
            write: Box::new(entry),
            ..Self::nothing()
        }
    }

    pub fn read(entry: impl FnMut(&[u8]) -> Heard + 'static) -> Self {
        Self {
            read: Box::new(entry),
            ..Self::nothing()
        }
    }

    pub fn multicast(entry: impl FnMut(&[u8], usize, &mut Groups) -> u8 + 'static) -> Self {
        Self {
            multicast: Box::new(entry),
            ..Self::nothing()
        }
    }

    pub fn judge(entry: impl FnMut(&[Groups], usize, u64) -> Judged + 'static) -> Self {
        Self {
            judge: Box::new(entry),
            ..Self::nothing()
        }
    }

    pub fn plan(entry: impl FnMut(&[Structure], &mut [u16]) -> u8 + 'static) -> Self {
        Self {
            plan: Box::new(entry),
            ..Self::nothing()
        }
    }

    pub fn check(entry: impl FnMut(&[Structure], &[u16]) -> u8 + 'static) -> Self {
        Self {
            check: Box::new(entry),
            ..Self::nothing()
        }
    }

    pub fn lay(entry: impl FnMut(&[Structure], &[u16], &mut [u8]) -> u8 + 'static) -> Self {
        Self {
            lay: Box::new(entry),
            ..Self::nothing()
        }
    }

    pub fn duo(entry: impl FnMut(DuoCall<'_>) -> DuoServed + 'static) -> Self {
        Self {
            duo: Box::new(entry),
            ..Self::nothing()
        }
    }

    pub fn duo_reset(entry: impl FnMut([Capture; 2]) -> [Capture; 2] + 'static) -> Self {
        Self {
            duo_reset: Box::new(entry),
            ..Self::nothing()
        }
    }
}

impl Subject for Wrong {
    fn serve(&mut self, call: ServeCall<'_>) -> Served {
        (self.serve)(call)
    }

    fn reset(&mut self, kept: Capture) -> Capture {
        (self.reset)(kept)
    }

    fn walk_compatible(&mut self, space: &[u8], room: &mut [u16]) -> Walked {
        (self.walk)(List::Compatible, space, room)
    }

    fn walk_extended(&mut self, space: &[u8], room: &mut [u16]) -> Walked {
        (self.walk)(List::Extended, space, room)
    }

    fn walk_trusted(&mut self, space: &[u8], room: &mut [u16]) -> Walked {
        (self.walk)(List::Trusted, space, room)
    }

    fn dvsec(&mut self, space: &[u8], at: usize) -> Dvsec {
        (self.dvsec)(space, at)
    }

    fn dvsec_body(&mut self, space: &[u8], at: usize) -> Part {
        (self.body)(space, at)
    }

    fn dual_bdf(&mut self, space: &[u8], at: usize) -> Alternate {
        (self.dual)(space, at)
    }

    fn route(&mut self, ports: &[Port], packet: &[u8], leaving: &mut [u8]) -> Routed {
        (self.route)(ports, packet, leaving)
    }

    fn write_request(&mut self, parts: Parts, buffer: &mut [u8]) -> Written {
        (self.write)(parts, buffer)
    }

    fn read_completion(&mut self, completion: &[u8]) -> Heard {
        (self.read)(completion)
    }

    fn multicast(&mut self, space: &[u8], at: usize, groups: &mut Groups) -> u8 {
        (self.multicast)(space, at, groups)
    }

    fn judge(&mut self, ports: &[Groups], entering: usize, address: u64) -> Judged {
        (self.judge)(ports, entering, address)
    }

    fn plan_layout(&mut self, structures: &[Structure], room: &mut [u16]) -> u8 {
        (self.plan)(structures, room)
    }

    fn check_layout(&mut self, structures: &[Structure], offsets: &[u16]) -> u8 {
        (self.check)(structures, offsets)
    }

    fn write_layout(&mut self, structures: &[Structure], offsets: &[u16], space: &mut [u8]) -> u8 {
        (self.lay)(structures, offsets, space)
    }

    fn serve_pair(&mut self, call: DuoCall<'_>) -> DuoServed {
        (self.duo)(call)
    }

    fn reset_pair(&mut self, kept: [Capture; 2]) -> [Capture; 2] {
        (self.duo_reset)(kept)
    }
}

/// The little-endian word at an offset.
pub fn word(bytes: &[u8], offset: usize) -> u32 {
    u32::from_le_bytes([bytes[offset], bytes[offset + 1], bytes[offset + 2], bytes[offset + 3]])
}

/// The model's walk of any list.
pub fn right_walk(list: List, space: &[u8], room: &mut [u16]) -> Walked {
    match list {
        List::Compatible => Reference.walk_compatible(space, room),
        List::Extended => Reference.walk_extended(space, room),
        List::Trusted => Reference.walk_trusted(space, room),
    }
}

/// The run that every subject here goes through.
pub fn run_fixed(subject: &mut impl Subject) -> Result<Tally, Failure> {
    run(subject, SEED, CALLS)
}

/// Fails where a subject is caught.
pub fn expect_not_caught(mut subject: Wrong) {
    if let Err(failure) = run(&mut subject, SEED, RIGHT_CALLS) {
        panic!("{failure}");
    }
}

/// Fails unless a subject is caught by a call of the given entry.
pub fn expect_caught(mut subject: Wrong, entry: &str) -> Failure {
    caught(run_fixed(&mut subject), entry)
}

/// Fails where a subject is caught by calls of a board of two functions.
pub fn expect_two_not_caught(mut subject: Wrong) {
    if let Err(failure) = run_two_functions(&mut subject, SEED, CALLS_OF_TWO) {
        panic!("{failure}");
    }
}

/// Fails unless a subject is caught by such calls, and by the given entry.
pub fn expect_two_caught(mut subject: Wrong, entry: &str) -> Failure {
    caught(run_two_functions(&mut subject, SEED, CALLS_OF_TWO), entry)
}

/// Fails where a subject is caught by packets that are repeated.
pub fn expect_repeats_not_caught(mut subject: Wrong) {
    if let Err(failure) = run_repeated(&mut subject, SEED, CALLS_OF_REPEATS) {
        panic!("{failure}");
    }
}

/// Fails unless a subject is caught by such packets, and by the given entry.
pub fn expect_repeats_caught(mut subject: Wrong, entry: &str) -> Failure {
    caught(run_repeated(&mut subject, SEED, CALLS_OF_REPEATS), entry)
}

/// Fails where a subject is caught by packets that are repeated with nothing between.
pub fn expect_doubles_not_caught(mut subject: Wrong) {
    if let Err(failure) = run_doubled(&mut subject, SEED, CALLS_OF_REPEATS) {
        panic!("{failure}");
    }
}

fn caught(outcome: Result<Tally, Failure>, entry: &str) -> Failure {
    match outcome {
        Ok(_) => panic!("no call caught it"),
        Err(failure) => {
            assert_eq!(failure.difference.entry, entry, "{failure}");
            failure
        }
    }
}
