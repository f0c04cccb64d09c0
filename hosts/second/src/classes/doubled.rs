//! Bits that are marked both as writable and as cleared by writing 1: which there are, and the classes of a call whose
//! only fault they are.

use super::group::Group;
use super::marked_names::DoubledPlace;
use super::serve::ServeView;
use super::tally::Tally;

/// The bits of a space that are marked doubly, by their places from its start on. Of buffers with other lengths than
/// 4,096, the bytes count that both have and that lie in the space.
///
/// No bit is in both of two bytes exactly where their or is their xor. All pairs are first gone through without a way
/// out, which is fast, since mostly there is none.
pub fn doubled_bits(rules: &[u8], marks: &[u8]) -> Vec<usize> {
    let common = rules.len().min(marks.len()).min(4096);
    let pairs = || rules[..common].iter().zip(&marks[..common]);
    let lost = |rule: u8, mark: u8| (rule | mark) ^ (rule ^ mark);
    if pairs().fold(0, |all, (&rule, &mark)| all | lost(rule, mark)) == 0 {
        return Vec::new();
    }
    let mut bits = Vec::new();
    for (byte, (&rule, &mark)) in pairs().enumerate() {
        let lost = lost(rule, mark);
        bits.extend((0..8).filter(|bit| lost >> bit & 1 == 1).map(|bit| 8 * byte + bit));
    }
    bits
}

/// Counts a call that has doubly marked bits in one space, the trusted one or the other, and no other fault.
pub fn count_doubled(view: &ServeView<'_>, trusted: bool, bits: &[usize], tally: &mut Tally) {
    let space = usize::from(trusted);
    let mut place = |place: DoubledPlace| tally.add(Group::DoubledPlaces, DoubledPlace::COUNT * space + place as usize);
    if let [bit] = *bits {
        tally.add(Group::DoubledBytes, 4096 * space + bit / 8);
        tally.add(Group::DoubledBits, 32 * space + bit % 32);
        return count_one(view, trusted, bit / 32 * 4, tally);
    }
    let one_byte = bits.iter().all(|bit| bit / 8 == bits[0] / 8);
    place(if one_byte {
        DoubledPlace::SeveralInAByte
    } else {
        DoubledPlace::Many
    });
    let (rules, marks) = view.ruled(trusted);
    if rules == marks {
        place(DoubledPlace::Alike);
    }
}

/// Counts a call by the offset of the word that has its only doubly marked bit, and by what the packet asks for.
fn count_one(view: &ServeView<'_>, trusted: bool, word: usize, tally: &mut Tally) {
    let bytes = &view.case.packet.bytes;
    let asked = 256 * (usize::from(bytes[10]) % 16) + 4 * (usize::from(bytes[11]) / 4);
    let codes = [0x04, 0x44, 0x05, 0x45, 0x1B, 0x5B];
    let code = codes.iter().position(|&code| code == bytes[0] & 0x7F);
    let space = usize::from(trusted);
    tally.add(
        Group::DoubledKinds,
        6 * space + code.expect("a packet without a fault has one of the six type codes"),
    );
    let (a, b) = (view.case.description.a as usize, view.case.description.b as usize);
    let own = trusted == matches!(bytes[0] & 0x7F, 0x1B | 0x5B);
    let mut add_if = |condition, place: DoubledPlace| {
        let class = DoubledPlace::COUNT * space + place as usize;
        tally.add_if(condition, Group::DoubledPlaces, class);
    };
    add_if(word == a, DoubledPlace::AtA);
    add_if(word == b, DoubledPlace::AtB);
    add_if(own && word == asked, DoubledPlace::AskedFor);
    add_if(own && word < asked, DoubledPlace::Before);
    add_if(own && word > asked, DoubledPlace::Behind);
    add_if(!own && word == asked, DoubledPlace::AskedForElsewhere);
    add_if(!own && word != asked, DoubledPlace::Elsewhere);
}

#[cfg(test)]
mod tests {
    use super::doubled_bits;

    #[test]
    fn the_bits_are_told_that_both_have() {
        let (mut rules, mut marks) = (vec![0x0F; 4096], vec![0xF0; 4096]);
        assert_eq!(doubled_bits(&rules, &marks), []);
        rules[0] = 0x8F;
        marks[4095] = 0xF1;
        marks[2] = 0xFF;
        let due = [7, 16, 17, 18, 19, 8 * 4095];
        assert_eq!(doubled_bits(&rules, &marks), due);
        assert_eq!(doubled_bits(&rules, &marks[..3]), due[..5]);
        assert_eq!(doubled_bits(&rules[..0], &marks), []);
        rules.resize(4100, 0xFF);
        marks.resize(4100, 0xFF);
        assert_eq!(doubled_bits(&rules, &marks), due);
    }
}
