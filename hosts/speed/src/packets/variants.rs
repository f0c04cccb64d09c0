//! Served packets of one kind that differ in their contents only: their times should not.

use super::board::{Answer, Board, Library, SafeRust};
use super::check;
use super::draft::Draft;
use super::kind::SERVED;
use super::masks::Masks;
use super::setting::Setting;
use super::{PACKETS, Packets, SERVED_CALLS, pass};
use crate::measure::{Contest, Pass};
use crate::random::Random;

/// The times of one side for the variants of one kind of packet.
pub struct Variants {
    pub packets: &'static str,
    pub side: &'static str,
    pub names: Vec<String>,
    pub contest: Contest,
}

/// One choice of contents.
#[derive(Clone, Copy)]
struct Contents {
    code: u8,
    high: bool,
    enables: u8,
    rules: u8,
    marks: u8,
    data: u8,
}

/// Reads and writes on every side, and the library's controls.
pub fn all() -> Result<Vec<Variants>, String> {
    let reads = contents(0x04);
    let writes = contents(0x44);
    Ok(vec![
        variants::<Library>("ordinary reads", Library::NAME, &reads)?,
        variants::<SafeRust>("ordinary reads", SafeRust::NAME, &reads)?,
        variants::<Masks>("ordinary reads", Masks::NAME, &reads)?,
        variants::<Library>("ordinary reads", "library, control", &vec![reads[0]; reads.len()])?,
        variants::<Library>("ordinary writes", Library::NAME, &writes)?,
        variants::<SafeRust>("ordinary writes", SafeRust::NAME, &writes)?,
        variants::<Masks>("ordinary writes", Masks::NAME, &writes)?,
        variants::<Library>("ordinary writes", "library, control", &vec![writes[0]; writes.len()])?,
    ])
}

/// All choices of contents. What a read finds in the space stands in the place of data.
fn contents(code: u8) -> Vec<Contents> {
    let mut all = Vec::new();
    for high in [false, true] {
        for enables in [0, 1, 15] {
            for (rules, marks) in [(0x00, 0x00), (0xFF, 0x00), (0x00, 0xFF)] {
                all.extend([0x00, 0xFF].map(|data| Contents {
                    code,
                    high,
                    enables,
                    rules,
                    marks,
                    data,
                }));
            }
        }
    }
    all
}

fn variants<Side: Board + 'static>(
    packets: &'static str,
    side: &'static str,
    all: &[Contents],
) -> Result<Variants, String> {
    let passes: Vec<Pass> = all
        .iter()
        .map(|&contents| checked_pass::<Side>(contents))
        .collect::<Result<_, _>>()?;
    let names = all.iter().map(|contents| contents.name()).collect();
    Ok(Variants {
        packets,
        side,
        names,
        contest: Contest::new(SERVED_CALLS, passes),
    })
}

fn checked_pass<Side: Board + 'static>(contents: Contents) -> Result<Pass, String> {
    let mut random = Random::seeded(100);
    let mut setting = Setting::drawn(&mut random);
    setting.lent.ordinary_rules.fill(contents.rules);
    setting.lent.ordinary_marks.fill(contents.marks);
    if contents.code == 0x04 {
        setting.lent.ordinary.fill(contents.data);
    }
    let packets: Packets = (0..PACKETS).map(|_| contents.packet(&mut random, &setting)).collect();
    let answer = Answer {
        number: 0,
        length: if contents.code == 0x04 { 16 } else { 12 },
    };
    check::equal_answers(&contents.name(), &setting, &packets, true, answer, SERVED)?;
    Ok(pass::<Side>(&setting, &packets, SERVED_CALLS))
}

impl Contents {
    fn name(self) -> String {
        let Self {
            high,
            enables,
            rules,
            marks,
            data,
            ..
        } = self;
        let offset = if high { "high" } else { "low" };
        format!("offset {offset}, enables {enables}, rules {rules:02X}h, marks {marks:02X}h, data {data:02X}h")
    }

    /// A packet in the first or in the last 256 bytes, with these enables and this data.
    fn packet(self, random: &mut Random, setting: &Setting) -> Box<[u8]> {
        let offset = if self.high { 0xF00 } else { 0x000 } + 4 * random.below(64) as u16;
        let draft = Draft::ordinary(self.code, random, setting)
            .at(offset)
            .with_enables(self.enables);
        let draft = if self.code == 0x44 {
            draft.with_data(self.data)
        } else {
            draft
        };
        draft.into_bytes()
    }
}
