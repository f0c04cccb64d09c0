//! Calls of `judge` as a whole: a list of records, the port that is entered by and an address, with faults or without.

use thawribbon::raw::Groups;

use super::aim::{Aim, AimMaker};
use super::cursor::Cursor;
use super::groups::{any_groups, register_with, sound_groups};
use super::random::Random;
use super::record_fault::{RecordFault, RecordFaultMaker};

/// The most ports of a list that is not refused.
const MOST_PORTS: usize = 32;
/// The longest list that is lent.
pub const LONGEST_RECORDS: usize = 256 + MOST_PORTS;

/// A call of `judge`.
pub struct JudgeCase {
    pub ports: Vec<Groups>,
    pub entering: usize,
    pub address: u64,
}

/// A cause for the number 1.
#[derive(Clone, Copy)]
enum Fault {
    Record(RecordFault),
    TooMany,
    Empty,
    NoPort,
}

/// The faults, each with how often it is taken: those with many values more often. Those of records come first, since they
/// may make a list longer.
const FAULTS: [(Fault, usize); 9] = [
    (Fault::Record(RecordFault::MaxGroup), 15),
    (Fault::Record(RecordFault::NumGroup), 16),
    (Fault::Record(RecordFault::Enable), 16),
    (Fault::Record(RecordFault::IndexOver), 15),
    (Fault::Record(RecordFault::IndexUnder), 12),
    (Fault::Record(RecordFault::Base), 12),
    (Fault::TooMany, 10),
    (Fault::Empty, 2),
    (Fault::NoPort, 10),
];

/// Which of the other ports receive a group.
#[derive(Clone, Copy)]
enum Receivers {
    None,
    All,
    Some,
    One(usize),
    AllBut(usize),
}

/// Makes calls.
pub struct JudgeMaker {
    aims: AimMaker,
    places: Cursor,
    record_faults: RecordFaultMaker,
}

impl JudgeMaker {
    pub const fn new() -> Self {
        Self {
            aims: AimMaker::new(),
            places: Cursor::new(MOST_PORTS),
            record_faults: RecordFaultMaker::new(),
        }
    }

    /// A call with no fault, one or two.
    pub fn case(&mut self, random: &mut Random) -> JudgeCase {
        let count = random.weighted(&[66, 27, 7]);
        let aim = self.aims.aim(count == 0, random);
        let mut case = sound_case(&aim, random);
        let weights = FAULTS.map(|(_, weight)| weight);
        let mut places = [(); 2].map(|()| random.weighted(&weights));
        places.sort_unstable();
        for &place in &places[..count] {
            match FAULTS[place].0 {
                Fault::Record(fault) => self.spoil(fault, count == 1, &mut case, &aim, random),
                Fault::TooMany => too_many(&mut case, random),
                Fault::Empty => case.ports.clear(),
                Fault::NoPort => case.entering = no_port(&case, random),
            }
        }
        case
    }

    /// Puts a fault into a record at any of the 32 places, the port that is entered by among them.
    fn spoil(&mut self, fault: RecordFault, in_turn: bool, case: &mut JudgeCase, aim: &Aim, random: &mut Random) {
        let place = match random.percent(75) {
            true => self.places.draw(in_turn, random),
            false => case.entering,
        };
        if case.ports.len() <= place {
            let length = random.within(place + 1, MOST_PORTS);
            case.ports
                .resize_with(length, || other(aim, Receivers::Some, 0, random));
        }
        self.record_faults.put(fault, in_turn, &mut case.ports[place], random);
    }

    /// A call in which all is random.
    pub fn noise(random: &mut Random) -> JudgeCase {
        let count = random.pick(&[1, 2, 3, 40]);
        let ports: Vec<Groups> = (0..random.below(count + 1)).map(|_| any_groups(random)).collect();
        let any = random.bits() as usize;
        JudgeCase {
            entering: random.pick(&[any, any % 40, any % (ports.len() + 1)]),
            address: random.bits(),
            ports,
        }
    }
}

/// A call without a fault: the record aimed at is entered by, at any place of the list.
fn sound_case(aim: &Aim, random: &mut Random) -> JudgeCase {
    let any = random.within(1, MOST_PORTS);
    let count = random.pick(&[1, 2, 3, 31, 32, any, any, any, any, any, any, any]);
    let any = random.below(count);
    let entering = random.pick(&[0, count - 1, any, any, any, any]);
    let any = random.below(count);
    let one = random.pick(&[0, count - 1, any, any]);
    let receivers = match random.weighted(&[14, 14, 56, 8, 8]) {
        0 => Receivers::None,
        1 => Receivers::All,
        2 => Receivers::Some,
        3 => Receivers::One(one),
        _ => Receivers::AllBut(one),
    };
    let mut ports: Vec<Groups> = (0..count).map(|place| other(aim, receivers, place, random)).collect();
    ports[entering] = Groups {
        receive: register_with(aim.group, random.percent(60), random),
        block_all: register_with(aim.group, random.percent(30), random),
        ..aim.entered
    };
    JudgeCase {
        ports,
        entering,
        address: aim.address,
    }
}

/// The record of a port that may be left by: like that of the one entered by, or any.
fn other(aim: &Aim, receivers: Receivers, place: usize, random: &mut Random) -> Groups {
    let receives = match receivers {
        Receivers::None => false,
        Receivers::All => true,
        Receivers::Some => random.percent(50),
        Receivers::One(one) => place == one,
        Receivers::AllBut(one) => place != one,
    };
    let any = sound_groups(random);
    let like = if random.percent(50) { aim.entered } else { any };
    Groups {
        receive: register_with(aim.group, receives, random),
        block_all: any.block_all,
        ..like
    }
}

/// Makes a list longer than 32: by one port, by some, or such that it would be good if its length had eight bits.
fn too_many(case: &mut JudgeCase, random: &mut Random) {
    let length = match random.weighted(&[55, 20, 15, 10]) {
        0 => 33,
        1 => 34,
        2 => random.within(35, 64),
        _ => 256 + case.ports.len().min(MOST_PORTS),
    };
    case.ports.resize_with(length, || sound_groups(random));
    if random.percent(30) {
        case.entering = random.pick(&[0, 31, 32, length - 1]);
    }
}

/// A place that is not in the list: the one behind its last, one further on, or one that is right in its low bits.
fn no_port(case: &JudgeCase, random: &mut Random) -> usize {
    let (length, entering) = (case.ports.len(), case.entering);
    let further = random.within(length, length + 40);
    let one = 1 << random.within(8, 63) | entering;
    let high = usize::MAX << random.within(8, 63) | entering;
    let places = [
        length,
        length,
        length,
        length + 1,
        further,
        entering | 0x20,
        entering | 0x100,
        entering | 0x100,
        one,
        entering | 1 << 16,
        entering | 1 << 32,
        entering | 1 << 63,
        high,
        usize::MAX,
    ];
    random.pick(&places).max(length)
}
