//! Document 01's rules, one module for each of its sections: packets, lists and records, as the requests 2/13, 3/13,
//! 6/13, 7/13 and 9/13 change them. And the requests 1/13, the router, 5/13, the asking side, 8/13, Multicast, 10/13, the
//! planner, and 11/13, a board of two functions. Request 12/13 changes no answer: it is tried on the model, and in runs.
//!
//! Every function answers every input. A number other than 0 leaves all that was lent as it was.

mod accept;
mod ask;
mod claims;
mod completion;
mod description;
mod dual_bdf;
mod dvsec;
mod edition;
mod functions;
mod headers;
mod hear;
mod judge;
mod marks;
mod merge;
mod multicast;
mod plan;
mod ports;
mod refusal;
mod request;
mod route;
mod ruled;
mod serve;
mod space;
mod structures;
mod walk;

#[cfg(test)]
mod asking_side;
#[cfg(test)]
mod backplane;
#[cfg(test)]
mod bench_sheet;
#[cfg(test)]
mod broken;
#[cfg(all(test, debug_assertions))]
mod checked;
#[cfg(test)]
mod editions;
#[cfg(test)]
mod new_board;
#[cfg(test)]
mod null;
#[cfg(test)]
mod radar;
#[cfg(test)]
mod retry;
#[cfg(test)]
mod shapes;
#[cfg(test)]
mod status_bits;
#[cfg(test)]
mod two_functions;
#[cfg(test)]
mod whole_words;

pub use accept::check_layout;
pub use ask::{Parts, Written, write_request};
pub use description::Description;
pub use dual_bdf::{Alternate, dual_bdf};
pub use dvsec::{Dvsec, dvsec, dvsec_body};
pub use edition::counts_as_trusted;
pub use functions::{Function, ServedByTwo, is_for, serve_pair};
pub use headers::write_layout;
pub use hear::{Heard, Said, read_completion};
pub use judge::{Judged, Verdict, judge};
pub use merge::merged;
pub use multicast::{Groups, Multicast, multicast};
pub use plan::plan_layout;
pub use ports::Port;
pub use route::{Routed, route};
pub use serve::{Served, serve};
pub use structures::Structure;
pub use walk::{List, Walked, walk};
