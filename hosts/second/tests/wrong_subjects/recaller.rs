//! What the wrong ways to take a packet that comes again are made of: a memory of the packets before.

use second::compare::{DuoCall, DuoServed, Reference, ServeCall, Subject};
use thawribbon::raw::Served;

use crate::coupler;
use crate::harness::Wrong;
use crate::serving::again;

/// What a packet is known by.
pub type Key = fn(&[u8]) -> Vec<u8>;

/// All of its bytes.
pub fn by_bytes(packet: &[u8]) -> Vec<u8> {
    packet.to_vec()
}

/// Its requester and its tag.
pub fn by_tag(packet: &[u8]) -> Vec<u8> {
    packet[4..7].to_vec()
}

/// The last packets that were accepted, each with what was answered.
pub struct Memory<Answer> {
    most: usize,
    key: Key,
    met: Vec<(Vec<u8>, Answer, Vec<u8>)>,
}

impl<Answer: Copy> Memory<Answer> {
    pub const fn new(most: usize, key: Key) -> Self {
        Self {
            most,
            key,
            met: Vec::new(),
        }
    }

    /// What was answered to a packet before, and the bytes of its reply.
    pub fn recall(&self, packet: &[u8]) -> Option<(Answer, &[u8])> {
        if packet.len() < 12 {
            return None;
        }
        let key = (self.key)(packet);
        let found = self.met.iter().rev().find(|(other, ..)| *other == key);
        found.map(|(_, answer, reply)| (*answer, &reply[..]))
    }

    pub fn keep(&mut self, packet: &[u8], answer: Answer, reply: &[u8]) {
        self.met.push(((self.key)(packet), answer, reply.to_vec()));
        if self.met.len() > self.most {
            self.met.remove(0);
        }
    }
}

/// Serves where a packet that is in the memory may be answered in another way: the call, what was answered, and its reply.
pub fn recalling(
    most: usize,
    key: Key,
    mut other: impl FnMut(&mut ServeCall<'_>, Served, &[u8]) -> Option<Served> + 'static,
) -> Wrong {
    let mut memory = Memory::new(most, key);
    Wrong::serve(move |mut call| {
        let known = memory.recall(call.packet);
        if let Some(served) = known.and_then(|(served, reply)| other(&mut call, served, reply)) {
            return served;
        }
        let served = Reference.serve(again(&mut call));
        if served.number == 0 {
            memory.keep(call.packet, served, &call.reply[..served.length]);
        }
        served
    })
}

/// The same of a board of two functions.
pub fn recalling_two(
    most: usize,
    key: Key,
    mut other: impl FnMut(&mut DuoCall<'_>, DuoServed, &[u8]) -> Option<DuoServed> + 'static,
) -> Wrong {
    let mut memory = Memory::new(most, key);
    Wrong::duo(move |mut call| {
        let known = memory.recall(call.packet);
        if let Some(served) = known.and_then(|(served, reply)| other(&mut call, served, reply)) {
            return served;
        }
        let served = Reference.serve_pair(coupler::again(&mut call));
        if served.number == 0 {
            memory.keep(call.packet, served, &call.reply[..served.length]);
        }
        served
    })
}

/// Answers as before, without serving.
pub fn as_before(call: &mut ServeCall<'_>, served: Served, reply: &[u8]) -> Option<Served> {
    let room = call.reply.get_mut(..reply.len())?;
    room.copy_from_slice(reply);
    Some(served)
}

/// The same of a board of two functions.
pub fn two_as_before(call: &mut DuoCall<'_>, served: DuoServed, reply: &[u8]) -> Option<DuoServed> {
    let room = call.reply.get_mut(..reply.len())?;
    room.copy_from_slice(reply);
    Some(served)
}
