//! The classes of the question for a Dual-BDF record, from the space, the offset and the model's answer.

use super::alone::{first_told, offset_causes, only};
use super::group::Group;
use super::tally::Tally;
use crate::generate::{NAMED_LENGTHS, named_length_place};
use crate::twin::word;

/// The fields of a Dual-BDF record.
struct Dual {
    capability: u8,
    capability_length: u8,
    vendor: u32,
    revision: u32,
    length: u32,
    id: u32,
    vector: u8,
    device: u32,
}

impl Dual {
    fn of(space: &[u8], at: usize) -> Self {
        let [first, second, third] = [0, 4, 8].map(|place| word(space, at + place));
        Self {
            capability: first as u8,
            capability_length: (first >> 16) as u8,
            vendor: second & 0xFFFF,
            revision: second >> 16 & 0xF,
            length: second >> 20,
            id: third & 0xFFFF,
            vector: (third >> 16) as u8,
            device: third >> 24 & 0x1F,
        }
    }

    /// How the vendor does not go with the ID, if so: 8086h with 0002h, 1EC0h with 0009h, another vendor, or another ID
    /// with a vendor that is known.
    const fn misfit(&self) -> [bool; 4] {
        let (intel, usb) = (self.vendor == 0x8086, self.vendor == 0x1EC0);
        let known = intel || usb;
        let fits = intel && self.id == 0x0009 || usb && self.id == 0x0002;
        let mixed = [intel && self.id == 0x0002, usb && self.id == 0x0009];
        [mixed[0], mixed[1], !known, known && !fits && !mixed[0] && !mixed[1]]
    }

    /// The causes of 8, 9 and 10, in the order of the group's names.
    fn causes(&self, at: usize) -> [bool; 12] {
        let [mixed_0, mixed_1, vendor, id] = self.misfit();
        [
            self.capability != 0x09,
            at == 0x0F8,
            at == 0x0FC,
            self.capability_length != 0x0C,
            self.length != 0x00C,
            self.revision != 0,
            mixed_0,
            mixed_1,
            vendor,
            id,
            self.vector == 0,
            self.vector != 0 && !self.vector.is_power_of_two(),
        ]
    }
}

/// Counts a question for a Dual-BDF record, with the number that the model gives to it.
pub fn count_dual(space: &[u8], at: usize, number: u8, tally: &mut Tally) {
    let answers = [0, 1, 8, 9, 10];
    let answer = answers.iter().position(|&known| known == number);
    tally.add(Group::DualAnswers, answer.expect("Dual-BDF answers 0, 1, 8, 9 or 10"));
    if let Some(length) = named_length_place(space.len()) {
        tally.add(Group::SpaceLengths, 9 * NAMED_LENGTHS + length);
    }
    let outside = offset_causes(space, at, 0x040, 0x0FC);
    if outside.contains(&true) {
        assert_eq!(number, 1, "the model and the causes disagree on a Dual-BDF record");
        if let Some(cause) = only(&outside) {
            tally.add(Group::DualCauses, cause);
        }
        return;
    }
    let dual = Dual::of(space, at);
    count_causes(&dual, at, number, tally);
    if number == 0 {
        count_sound_dual(space, at, &dual, tally);
    }
}

/// Counts a record by its causes: the one that stands alone, or the first two in document 01's order.
fn count_causes(dual: &Dual, at: usize, number: u8, tally: &mut Tally) {
    let causes = dual.causes(at);
    let [structure, length, vendor, vector] = [&causes[..1], &causes[1..5], &causes[5..10], &causes[10..]];
    assert_eq!(
        first_told(&[(8, structure), (9, length), (8, vendor), (10, vector)]),
        number,
        "the model and the causes disagree on a Dual-BDF record"
    );
    if let Some(cause) = only(&causes) {
        tally.add(Group::DualCauses, 6 + cause);
    }
    let [structure, length, vendor, vector] = [structure, length, vendor, vector].map(|part| part.contains(&true));
    tally.add_if(structure && length, Group::DualOrder, 0);
    tally.add_if(!structure && length && vendor, Group::DualOrder, 1);
    tally.add_if(!structure && length && !vendor && vector, Group::DualOrder, 2);
    tally.add_if(!structure && !length && vendor && vector, Group::DualOrder, 3);
    let sound_but_for_vector = !structure && !length && !vendor;
    tally.add_if(sound_but_for_vector, Group::DualVectors, dual.vector.into());
}

fn count_sound_dual(space: &[u8], at: usize, dual: &Dual, tally: &mut Tally) {
    let vendor = usize::from(dual.vendor == 0x1EC0);
    tally.add(Group::DualFunctions, 8 * vendor + dual.vector.trailing_zeros() as usize);
    tally.add(Group::DualDevices, 32 * vendor + dual.device as usize);
    tally.add(Group::DualOffsets, (at - 0x040) / 4);
    tally.add_if(space[at + 11] >> 5 != 0, Group::DualIgnored, 0);
    tally.add_if(space[at + 3] != 0, Group::DualIgnored, 1);
    tally.add_if(space[at + 1] != 0, Group::DualIgnored, 2);
}
