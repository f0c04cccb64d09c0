//! A difference between the model and a subject, told so that a reader can see it without running it again.

use std::fmt::{self, Debug, Write};

use thawribbon::raw::{Groups, Port, Structure};

use crate::twin::{Twin, word};

/// The most words of a space that are shown.
const MOST_WORDS: usize = 16;
/// The most structures of a list that are shown, and the most offsets.
const MOST_STRUCTURES: usize = 32;

/// A call whose two outcomes are not alike.
#[derive(Debug)]
pub struct Difference {
    pub entry: &'static str,
    /// One line for each input.
    pub inputs: Vec<String>,
    /// What the model answered.
    pub ours: String,
    /// What the subject answered.
    pub theirs: String,
    /// The first cell of a buffer that differs.
    pub first: String,
}

impl Difference {
    pub fn new(entry: &'static str, ours: impl Debug, theirs: impl Debug) -> Self {
        let first = String::from("no cell of a buffer differs");
        Self {
            entry,
            inputs: Vec::new(),
            ours: format!("{ours:x?}"),
            theirs: format!("{theirs:x?}"),
            first,
        }
    }

    /// Adds an input.
    pub fn input(mut self, name: &str, value: impl Debug) -> Self {
        self.inputs.push(format!("{name}: {value:x?}"));
        self
    }

    /// Adds a lent buffer's bytes from before the call.
    pub fn bytes(mut self, name: &str, bytes: &[u8]) -> Self {
        let mut text = format!("{name}: {} bytes:", bytes.len());
        for byte in bytes {
            let _ = write!(text, " {byte:02x}");
        }
        self.inputs.push(text);
        self
    }

    /// Adds a list of ports: the secondary and the subordinate of each, and a plus where it supports TCS routing.
    pub fn ports(mut self, name: &str, ports: &[Port]) -> Self {
        let mut text = format!("{name}: {} ports:", ports.len());
        for port in ports {
            let support = if port.tcs { "+" } else { "" };
            let _ = write!(text, " {:02x}-{:02x}{support}", port.secondary, port.subordinate);
        }
        self.inputs.push(text);
        self
    }

    /// Adds the records of a list of ports: of each its numbers, in their order.
    pub fn records(mut self, name: &str, records: &[Groups]) -> Self {
        let mut text = format!("{name}: {} records:", records.len());
        for (place, record) in records.iter().enumerate() {
            let [max_group, num_group] = [record.max_group, record.num_group];
            let [enable, index, base] = [record.enable, record.index, record.base];
            let [receive, block_all] = [record.receive, record.block_all];
            let _ = write!(
                text,
                "\n    {place:x}: {max_group:x} {num_group:x} {enable:x} {index:x} {base:016x} {receive:016x} {block_all:016x}"
            );
        }
        self.inputs.push(text);
        self
    }

    /// Adds a list of structures: how many there are, and of the first their numbers, in their order.
    pub fn structures(mut self, name: &str, structures: &[Structure]) -> Self {
        let mut text = format!("{name}: {} structures:", structures.len());
        for Structure { id, version, length } in structures.iter().take(MOST_STRUCTURES) {
            let _ = write!(text, " ({id:04x} {version:x} {length:x})");
        }
        self.inputs.push(text);
        self
    }

    /// Adds a list of offsets: how many there are, and the first.
    pub fn offsets(mut self, name: &str, offsets: &[u16]) -> Self {
        let mut text = format!("{name}: {} offsets:", offsets.len());
        for offset in offsets.iter().take(MOST_STRUCTURES) {
            let _ = write!(text, " {offset:03x}");
        }
        self.inputs.push(text);
        self
    }

    /// Adds a space: its length, and the first of its nonzero words from before the call.
    pub fn space(mut self, name: &str, bytes: &[u8]) -> Self {
        let offsets = (0..bytes.len() / 4).map(|place| 4 * place);
        let nonzero: Vec<usize> = offsets.filter(|&offset| word(bytes, offset) != 0).collect();
        let mut text = format!("{name}: {} bytes, {} nonzero words:", bytes.len(), nonzero.len());
        for &offset in nonzero.iter().take(MOST_WORDS) {
            let _ = write!(text, " {offset:03x}={:08x}", word(bytes, offset));
        }
        if nonzero.len() > MOST_WORDS {
            text.push_str(" ...");
        }
        self.inputs.push(text);
        self
    }

    /// Adds single words of a space, by their offsets, as far as the space has them.
    pub fn words(mut self, name: &str, bytes: &[u8], offsets: &[usize]) -> Self {
        let mut text = format!("{name}:");
        for &offset in offsets
            .iter()
            .filter(|&&offset| offset < 0x1000 && offset + 4 <= bytes.len())
        {
            let _ = write!(text, " {offset:03x}={:08x}", word(bytes, offset));
        }
        self.inputs.push(text);
        self
    }

    /// Adds the first bytes of a space that have a bit both in the rules and in the marks.
    pub fn doubled(mut self, name: &str, rules: &[u8], marks: &[u8]) -> Self {
        let mut text = format!("{name} bytes with a bit marked doubly:");
        let pairs = rules.iter().zip(marks).enumerate();
        for (place, (rule, mark)) in pairs.filter(|(_, (rule, mark))| *rule & *mark != 0).take(MOST_WORDS) {
            let _ = write!(text, " {place:03x}={:02x}", rule & mark);
        }
        self.inputs.push(text);
        self
    }

    /// Looks for a cell that differs in a buffer, if none was found before.
    pub fn look<Cell: Copy + PartialEq + Debug>(mut self, name: &str, buffer: &Twin<Cell>) -> Self {
        let Some((place, ours, theirs)) = buffer.first_difference() else {
            return self;
        };
        let lent = buffer.ours().len() as isize;
        let outside = if (0..lent).contains(&place) {
            ""
        } else {
            ", outside what was lent"
        };
        let text = format!("{name}, place {place} ({place:#x}){outside}: model {ours:02x?}, subject {theirs:02x?}");
        if self.first.starts_with("no cell") {
            self.first = text;
        } else {
            let _ = write!(self.first, "; also {text}");
        }
        self
    }
}

impl fmt::Display for Difference {
    fn fmt(&self, formatter: &mut fmt::Formatter<'_>) -> fmt::Result {
        writeln!(formatter, "entry: {} (numbers in hexadecimal)", self.entry)?;
        for input in &self.inputs {
            writeln!(formatter, "  {input}")?;
        }
        writeln!(formatter, "model:   {}", self.ours)?;
        writeln!(formatter, "subject: {}", self.theirs)?;
        write!(formatter, "first difference: {}", self.first)
    }
}
