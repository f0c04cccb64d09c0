//! The answers of a board, of one function or of two, to configuration packets, the three capability lists, two records, a
//! switch's router, the asking side, a switch's multicast, and the extended list of a new board, by the proved code of
//! libthawribbon.a.
//!
//! Document 01 of the project fixes what every function answers, with what document 02 corrects, and for the router, the
//! asking side, multicast, layouts and boards of two functions document 02; their words are used here, and the rules that
//! hold stand in docs/RULES.md of the project.
//! Any bytes, of any length, get an answer. After a [`Refusal`] no lent byte and no capture has changed.
//!
//! | You want to | Use |
//! |---|---|
//! | ask | a [`Request`], which gives the [`Packet`] to send, and reads the [`Completion`] that came for it, or says why it is [`NotAnswered`] |
//! | have a board answer a packet | [`Board::serve`], which gives a [`Completion`] or says why it is [`NotDone`] |
//! | have a board of two functions answer a packet | [`Pair::serve`], which gives the same; [`Pair::dual_bdf`] tells whether a record names its alternate, or why it is [`NotNamed`] |
//! | have a switch pass a packet on | [`route`], which gives what is [`Leaving`], or says why it is [`NotRouted`] |
//! | know by which ports a multicast packet leaves a switch | [`Groups::read`] for each port, and [`judge`], which gives what is [`Judged`] |
//! | lay out the extended list of a new board | [`Layout::plan`], or [`Layout::check`] for one of your own, and [`Layout::write`] |
//! | list the capabilities of a space | [`headers`]; [`chain`] and [`walk`] give bare offsets |
//! | read a record | [`dvsec`], [`dvsec_body`], [`dual_bdf`] |
//! | have the functions of thawribbon.h as they are | [`raw`] |
//!
//! # A trusted write that must land
//!
//! A board takes a trusted write only when a Type 0 write has told it its bus and device number. `?` stops at whatever was
//! not done: parts that are no request, a packet that was refused, one that was answered Unsupported Request, and a
//! completion that is another request's. Done is not landed: a write that is done has changed only the bits that the
//! space's rules and marks let it change. So it is read back, and compared.
//!
//! ```
//! use thawribbon::{Board, Description, Edition, Id, NO_MARKS, NotAnswered, Request, SPACE, Said, Space};
//!
//! /// The board stands for the bus: a packet goes there, and the bytes of a completion come back.
//! fn ask(board: &mut Board, request: Request) -> Result<Said, NotAnswered> {
//!     let packet = request.packet()?;
//!     let reply = board.serve(&packet)?;
//!     Ok(request.answered_by(reply.bytes())?.said())
//! }
//!
//! fn main() -> Result<(), NotAnswered> {
//!     let (mut ordinary, mut trusted, rules) = ([0; SPACE], [0; SPACE], [0xFF; SPACE]);
//!     let mut board = Board::fresh(
//!         Description { function: 0, a: 0x104, b: 0x00C, edition: Edition::One },
//!         Space { bytes: &mut ordinary, rules: &rules, marks: &NO_MARKS },
//!         Space { bytes: &mut trusted, rules: &rules, marks: &NO_MARKS },
//!     );
//!     let host = [0x01, 0x00];
//!     let target = Id { bus: 0x05, device: 3, function: 0 };
//!     let data = [0x11, 0x22, 0x33, 0x44];
//!
//!     ask(&mut board, Request::type0_write(target, 0x010, [0; 4]).enabling(0x0).by(host, 6))?;
//!     ask(&mut board, Request::trusted_write(target, 0x010, data).by(host, 7))?;
//!     let landed = ask(&mut board, Request::trusted_read(target, 0x010).by(host, 8))? == Said::Data(data);
//!     assert!(landed);
//!     Ok(())
//! }
//! ```
//!
//! The same with the packets as bytes, and with the completion as [`Board::serve`] gives it. Bytes that came over a bus are
//! read back into the same [`Completion`], with the same `Result`, by [`Completion::read`].
//!
//! ```
//! use thawribbon::{Board, DATA, Description, Edition, NO_MARKS, NotDone, SPACE, Space};
//! use thawribbon::{TRUSTED_READ, TRUSTED_WRITE, TYPE0_WRITE};
//!
//! fn main() -> Result<(), NotDone> {
//!     let (mut ordinary, mut trusted, rules) = ([0; SPACE], [0; SPACE], [0xFF; SPACE]);
//!     let mut board = Board::fresh(
//!         Description { function: 0, a: 0x104, b: 0x00C, edition: Edition::One },
//!         Space { bytes: &mut ordinary, rules: &rules, marks: &NO_MARKS },
//!         Space { bytes: &mut trusted, rules: &rules, marks: &NO_MARKS },
//!     );
//!     let type0_write = [TYPE0_WRITE, 0, 0, 1, 1, 0, 6, 0x00, 0x05, 0x18, 0, 0x10, 0, 0, 0, 0];
//!     let trusted_write = [TRUSTED_WRITE, 0, 0, 1, 1, 0, 7, 0x0F, 0x05, 0x18, 0, 0x10, 0x11, 0x22, 0x33, 0x44];
//!     let trusted_read = [TRUSTED_READ, 0, 0, 1, 1, 0, 8, 0x0F, 0x05, 0x18, 0, 0x10];
//!
//!     board.serve(&type0_write)?;
//!     board.serve(&trusted_write)?;
//!     let landed = board.serve(&trusted_read)?.bytes()[DATA..] == trusted_write[DATA..];
//!     assert!(landed);
//!     Ok(())
//! }
//! ```
//!
//! # An error status bit
//!
//! Error status bits are cleared by writing 1: so a host clears those that it has seen, and no others. Which bits are such
//! is said by a space's marks. A marked bit is 0 after a write of 1, and stays after a write of 0; no bit may be in the
//! marks and in the rules. A space without such bits has [`NO_MARKS`].
//!
//! ```
//! use thawribbon::{Board, Description, Edition, Id, NO_MARKS, NotAnswered, Request, SPACE, Said, Space};
//!
//! # fn ask(board: &mut Board, request: Request) -> Result<Said, NotAnswered> {
//! #     let packet = request.packet()?;
//! #     let reply = board.serve(&packet)?;
//! #     Ok(request.answered_by(reply.bytes())?.said())
//! # }
//! fn main() -> Result<(), NotAnswered> {
//!     let (mut ordinary, mut trusted, rules, mut marks) = ([0; SPACE], [0; SPACE], [0; SPACE], [0; SPACE]);
//!     marks[0x007] = 0xF9; // the error bits of the Status register
//!     ordinary[0x007] = 0xC0; // two errors have come
//!     let mut board = Board::fresh(
//!         Description { function: 0, a: 0x104, b: 0x00C, edition: Edition::One },
//!         Space { bytes: &mut ordinary, rules: &rules, marks: &marks },
//!         Space { bytes: &mut trusted, rules: &rules, marks: &NO_MARKS },
//!     );
//!     let host = [0x01, 0x00];
//!     let target = Id { bus: 0x05, device: 3, function: 0 };
//!     let status = Request::type0_read(target, 0x004).enabling(0x8);
//!     let clear = Request::type0_write(target, 0x004, [0, 0, 0, 0x40]).enabling(0x8);
//!
//!     // It is read, one of the two is written 1, and it is read again: that one is gone, and the other stays.
//!     assert_eq!(ask(&mut board, status.by(host, 1))?, Said::Data([0, 0, 0, 0xC0]));
//!     ask(&mut board, clear.by(host, 2))?;
//!     assert_eq!(ask(&mut board, status.by(host, 3))?, Said::Data([0, 0, 0, 0x80]));
//!     Ok(())
//! }
//! ```
//!
//! # Two editions of byte 0
//!
//! Bit 7 of a packet's byte 0 is reserved in earlier revisions of Base, and a part of the format field in later ones. A
//! board's [`Description`] says by its [`Edition`] which it goes by: [`Edition::One`] ignores the bit, as every version
//! before 0.10.0 did, and [`Edition::Two`] refuses a packet that has it set. Packets without it are answered alike.
//!
//! # Two functions behind one device
//!
//! A board of two functions with different numbers is a [`Pair`]. A packet goes to the function that it names, and each has
//! spaces and a capture of its own: so a trusted write lands in the alternate only when a Type 0 write has told the alternate
//! itself its bus and device number. `?` stops at whatever was not done, and at a record that names something else.
//!
//! ```
//! use std::error::Error;
//! use thawribbon::{Edition, Function, Id, NO_MARKS, NotAnswered, Pair, Request, SPACE, Said, Side, Space};
//!
//! /// The board stands for the bus: a packet goes there, and the bytes of a completion come back.
//! fn ask(pair: &mut Pair, request: Request) -> Result<Said, NotAnswered> {
//!     let packet = request.packet()?;
//!     let reply = pair.serve(&packet)?;
//!     Ok(request.answered_by(reply.bytes())?.said())
//! }
//!
//! fn main() -> Result<(), Box<dyn Error>> {
//!     let (mut ordinary, mut trusted, rules) = ([[0; SPACE]; 2], [[0; SPACE]; 2], [0xFF; SPACE]);
//!     // The primary has a Dual-BDF record at 040h: function 1, device 3.
//!     ordinary[0][0x040..0x04C].copy_from_slice(&[0x09, 0, 0x0C, 0, 0xC0, 0x1E, 0xC0, 0, 0x02, 0, 0x02, 0x03]);
//!     let ([ordinary_0, ordinary_1], [trusted_0, trusted_1]) = (&mut ordinary, &mut trusted);
//!     let mut pair = Pair {
//!         edition: Edition::One,
//!         primary: Side::fresh(
//!             Function { function: 0, a: 0x104, b: 0x00C },
//!             Space { bytes: ordinary_0, rules: &rules, marks: &NO_MARKS },
//!             Space { bytes: trusted_0, rules: &rules, marks: &NO_MARKS },
//!         ),
//!         alternate: Side::fresh(
//!             Function { function: 1, a: 0x104, b: 0x00C },
//!             Space { bytes: ordinary_1, rules: &rules, marks: &NO_MARKS },
//!             Space { bytes: trusted_1, rules: &rules, marks: &NO_MARKS },
//!         ),
//!     };
//!     let host = [0x01, 0x00];
//!     let primary = Id { bus: 0x05, device: 3, function: 0 };
//!     let data = [0x11, 0x22, 0x33, 0x44];
//!
//!     // The primary is told its bus and device, and its record says who the alternate is.
//!     ask(&mut pair, Request::type0_write(primary, 0x010, [0; 4]).enabling(0x0).by(host, 5))?;
//!     let record = pair.dual_bdf(0x040)?;
//!     let alternate = Id { bus: primary.bus, device: record.device, function: record.function };
//!
//!     ask(&mut pair, Request::type0_write(alternate, 0x010, [0; 4]).enabling(0x0).by(host, 6))?;
//!     ask(&mut pair, Request::trusted_write(alternate, 0x010, data).by(host, 7))?;
//!     let landed = ask(&mut pair, Request::trusted_read(alternate, 0x010).by(host, 8))? == Said::Data(data);
//!     assert!(landed);
//!     assert_eq!(pair.primary.trusted.bytes[0x010..0x014], [0; 4]);
//!     Ok(())
//! }
//! ```
//!
//! # Repeating a request
//!
//! A reply is late, and nobody knows whether the board has served the packet. The same packet may be sent again: a board
//! answers it alike and is as after one packet, while nothing else has come to it in between. Where something may have, read
//! first: an old write that is repeated puts its old data back, and one that clears errors may clear a new one unread
//! (docs/RETRY.md of the project). Here the first reply to the trusted write is lost. `?` stops at what was refused or not
//! done, and after three packets without a reply.
//!
//! ```
//! use std::error::Error;
//! use thawribbon::{Board, Completion, Description, Edition, Id, NO_MARKS, NotDone, Refusal, Request, SPACE, Said, Space};
//!
//! /// Stands for the bus: it has a board at its end, and loses the reply to the second packet that is sent.
//! struct Bus<'a> {
//!     board: Board<'a>,
//!     sent: usize,
//! }
//!
//! impl Bus<'_> {
//!     fn send(&mut self, packet: &[u8]) -> Result<Option<Completion>, Refusal> {
//!         self.sent += 1;
//!         match self.board.serve(packet) {
//!             Ok(reply) | Err(NotDone::Unsupported(reply)) => Ok((self.sent != 2).then_some(reply)),
//!             Err(NotDone::Refused(refusal)) => Err(refusal),
//!         }
//!     }
//! }
//!
//! /// Asks, and asks again with the same packet where no reply comes: for a host alone at its board, and no write that
//! /// clears errors.
//! fn ask(bus: &mut Bus, request: Request) -> Result<Said, Box<dyn Error>> {
//!     let packet = request.packet()?;
//!     for _ in 0..3 {
//!         if let Some(reply) = bus.send(&packet)? {
//!             return Ok(request.answered_by(reply.bytes())?.said());
//!         }
//!     }
//!     Err("no reply to three packets".into())
//! }
//!
//! fn main() -> Result<(), Box<dyn Error>> {
//!     let (mut ordinary, mut trusted, rules) = ([0; SPACE], [0; SPACE], [0xFF; SPACE]);
//!     let board = Board::fresh(
//!         Description { function: 0, a: 0x104, b: 0x00C, edition: Edition::One },
//!         Space { bytes: &mut ordinary, rules: &rules, marks: &NO_MARKS },
//!         Space { bytes: &mut trusted, rules: &rules, marks: &NO_MARKS },
//!     );
//!     let mut bus = Bus { board, sent: 0 };
//!     let host = [0x01, 0x00];
//!     let target = Id { bus: 0x05, device: 3, function: 0 };
//!     let data = [0x11, 0x22, 0x33, 0x44];
//!
//!     ask(&mut bus, Request::type0_write(target, 0x010, [0; 4]).enabling(0x0).by(host, 6))?;
//!     ask(&mut bus, Request::trusted_write(target, 0x010, data).by(host, 7))?;
//!     let landed = ask(&mut bus, Request::trusted_read(target, 0x010).by(host, 8))? == Said::Data(data);
//!     assert!(landed);
//!     assert_eq!(bus.sent, 4); // three requests, and one of them twice
//!     Ok(())
//! }
//! ```
//!
//! # Who gets a radar's group
//!
//! The Multicast capability of each port of a switch says which groups there are at which addresses, which of them leave by
//! the port, and which are dropped where they enter. `?` stops at a port that has none, or one that is refused: no address
//! is judged without it.
//!
//! ```
//! use thawribbon::{Groups, Judged, List, MULTICAST_ID, Refusal, SPACE, headers, judge};
//!
//! /// The Multicast capability that a port's extended list has.
//! fn multicast(space: &[u8]) -> Result<Groups, Refusal> {
//!     let headers = headers(List::Extended, space)?;
//!     let header = headers.iter().find(|header| header.id == MULTICAST_ID);
//!     Groups::read(space, header.ok_or(Refusal::OtherStructure)?.offset)
//! }
//!
//! fn main() -> Result<(), Refusal> {
//!     // Three ports with groups 0 to 3 of 4 KiB each, from 8_0000_0000h on. Behind the last two are the model hosts.
//!     let mut spaces = [[0; SPACE]; 3];
//!     for space in &mut spaces {
//!         space[0x100..0x10E].copy_from_slice(&[0x12, 0x00, 0x01, 0x00, 0x3F, 0x00, 0x03, 0x80, 0x0C, 0, 0, 0, 0x08, 0]);
//!     }
//!     (spaces[1][0x110], spaces[2][0x110]) = (0b0110, 0b0100); // Receive: groups 1 and 2, and group 2
//!     let ports = spaces.iter().map(|space| multicast(space)).collect::<Result<Vec<_>, _>>()?;
//!
//!     // A radar volume of group 2 enters by port 0.
//!     match judge(&ports, 0, 0x8_0000_2000)? {
//!         Judged::Leaves { group, ports } => assert_eq!((group, ports.iter().collect()), (2, vec![1, 2])),
//!         Judged::Dropped { group } => panic!("group {group} is blocked"),
//!         Judged::NoHit => panic!("the address is no group's"),
//!     }
//!     Ok(())
//! }
//! ```
//!
//! # A new board
//!
//! The extended list of a new board is laid out from its structures, in their order. A planner proposes where each stands, a
//! checker decides, and only what it accepts is a [`Layout`], and can be written. `?` stops at structures that do not fit.
//!
//! ```
//! use thawribbon::{Layout, List, Refusal, SPACE, Structure, chain};
//!
//! fn main() -> Result<(), Refusal> {
//!     let structures = [
//!         Structure { id: 0x0023, version: 1, length: 22 },
//!         Structure { id: 0x0012, version: 1, length: 0x28 },
//!         Structure { id: 0x000C, version: 1, length: 8 },
//!     ];
//!     let mut room = [0; List::Extended.maximum()];
//!     let mut space = [0; SPACE];
//!     let layout = Layout::plan(&structures, &mut room)?;
//!     layout.write(&mut space)?;
//!     assert_eq!(chain(List::Extended, &space)?, [0x100, 0x118, 0x140]);
//!     Ok(())
//! }
//! ```
//!
//! # A board's first three packets
//!
//! P1 to P3 of the bench sheet: a fresh board does not know its bus and device number, so it cannot be asked for a
//! trusted register. An ordinary write tells it, and then it answers.
//!
//! ```
//! use thawribbon::{Board, Capture, Description, Edition, NO_MARKS, NotDone, SPACE, Space};
//!
//! let (mut ordinary, mut trusted, mut rules) = ([0; SPACE], [0; SPACE], [0; SPACE]);
//! rules[0x004..0x008].fill(0xFF);
//! trusted[0x004] = 0x08;
//! let mut board = Board::fresh(
//!     Description { function: 0, a: 0x104, b: 0x00C, edition: Edition::One },
//!     Space { bytes: &mut ordinary, rules: &rules, marks: &NO_MARKS },
//!     Space { bytes: &mut trusted, rules: &rules, marks: &NO_MARKS },
//! );
//!
//! // P1: a trusted read, and nothing is captured.
//! let trusted_read = [0x1B, 0x00, 0x00, 0x01, 0x01, 0x00, 0x08, 0x0F, 0x05, 0x18, 0x00, 0x04];
//! let Err(NotDone::Unsupported(completion)) = board.serve(&trusted_read) else { panic!("it was done") };
//! assert_eq!(completion.bytes(), [0x0A, 0x00, 0x00, 0x00, 0x00, 0x00, 0x20, 0x04, 0x01, 0x00, 0x08, 0x00]);
//!
//! // P2: an ordinary write. It lands, and the board captures bus 05h and device 3.
//! let write = [0x44, 0x00, 0x00, 0x01, 0x01, 0x00, 0x07, 0x0F, 0x05, 0x18, 0x00, 0x04, 0x11, 0x22, 0x33, 0x44];
//! let completion = board.serve(&write)?;
//! assert_eq!(completion.bytes(), [0x0A, 0x00, 0x00, 0x00, 0x05, 0x18, 0x00, 0x04, 0x01, 0x00, 0x07, 0x00]);
//! assert_eq!(board.capture, Some(Capture { bus: 0x05, device: 3 }));
//!
//! // P3: P1's packet once more, and now the trusted bytes at 004h come back.
//! let completion = board.serve(&trusted_read)?;
//! assert_eq!(completion.data(), Some([0x08, 0x00, 0x00, 0x00]));
//! # Ok::<(), NotDone>(())
//! ```
//!
//! # What is promised, and what is not
//!
//! The linked functions are compiled from proved code. This crate over them is not proved; it is tried, with every length
//! of every slice. Nothing is kept between calls but what a [`Board`] or a [`Pair`] holds, nothing but [`chain`] and
//! [`headers`] allocates, and with the archive that `./library` writes nothing panics. Boards in different threads do not
//! meet.
//!
//! The archive must be of this crate's version, [`VERSION`]. The build looks for it in `target/library` of the repository,
//! or in the folder that the environment variable `THAWRIBBON_LIBRARY` names, and ends with a line that says what to do
//! where it is not there or of another version.
#![deny(missing_docs)]
#![deny(unsafe_code)]

mod board;
mod completion;
mod constants;
mod edition;
mod layout;
mod lists;
mod multicast;
mod not_answered;
mod not_done;
mod not_named;
mod not_routed;
mod packet;
mod pair;
mod port_set;
#[allow(unsafe_code)]
pub mod raw;
mod records;
mod refusal;
mod request;
mod router;

pub use board::{Board, Capture, Description, Space};
pub use completion::{Completion, Id, Said, Status};
pub use constants::{
    COMPATIBLE_MAXIMUM, DATA, EDITION_1, EDITION_2, EXTENDED_MAXIMUM, GROUPS, LEAVING, MULTICAST_ID, NO_MARKS, PORTS,
    REPLY, REQUEST, SPACE, STATUS, STATUS_SUCCESSFUL, STATUS_UNSUPPORTED, TRUSTED_MAXIMUM, TRUSTED_READ, TRUSTED_WRITE,
    TYPE0_READ, TYPE0_WRITE, TYPE1_READ, TYPE1_WRITE, VERSION,
};
pub use edition::{Edition, UnknownEdition};
pub use layout::Layout;
pub use lists::{Header, List, chain, headers, walk};
pub use multicast::{Judged, judge};
pub use not_answered::NotAnswered;
pub use not_done::NotDone;
pub use not_named::NotNamed;
pub use not_routed::NotRouted;
pub use packet::Packet;
pub use pair::{Function, Pair, Side};
pub use port_set::{PortPlaces, PortSet};
pub use raw::{Groups, Port, Structure};
pub use records::{Alternate, Dvsec, dual_bdf, dvsec, dvsec_body};
pub use refusal::Refusal;
pub use request::{Kind, Request};
pub use router::{Leaving, route};

/// An offset in a space, wherever this crate takes or gives one.
///
/// Any number may be given: a function that takes one refuses those outside its range. [`raw`] has the types of C in its
/// place.
pub type Offset = u16;
