//! Requests to be written and completions to be read, one by one: made, put to the model and to the subject, compared
//! and counted.

use super::asking::{read_completion, write_request};
use super::difference::Difference;
use super::subject::Subject;
use crate::classes::{AskView, Group, Tally, count_ask, count_hear};
use crate::generate::{AskMaker, CompletionMaker, LONGEST_BUFFER, LONGEST_PACKET, Random};
use crate::twin::Twin;

/// What a comparison answers.
type Compared = Result<(), Box<Difference>>;

/// How many calls go by before what lies around the buffers is made anew.
const CALLS_OF_A_LIFE: usize = 100;

/// The makers of calls, and what is lent with them.
pub struct Asks {
    asks: AskMaker,
    completions: CompletionMaker,
    buffer: Twin<u8>,
    completion: Twin<u8>,
    calls_left: usize,
}

impl Asks {
    pub fn new() -> Self {
        Self {
            asks: AskMaker::new(),
            completions: CompletionMaker::new(),
            buffer: Twin::new(LONGEST_BUFFER),
            completion: Twin::new(LONGEST_PACKET),
            calls_left: 0,
        }
    }

    /// One call of `write_request`.
    pub fn write(&mut self, subject: &mut impl Subject, random: &mut Random, tally: &mut Tally) -> Compared {
        self.live(random);
        let is_noise = random.percent(4);
        let case = if is_noise {
            AskMaker::noise(random)
        } else {
            self.asks.case(random)
        };
        self.buffer.refill(|bytes| random.fill(bytes));
        self.buffer.lend(case.buffer_length);
        let written = write_request(case.parts, &mut self.buffer, subject)?;
        tally.add_if(is_noise, Group::Noise, 9);
        let view = AskView {
            case,
            written,
            buffer: self.buffer.ours(),
        };
        count_ask(&view, tally);
        Ok(())
    }

    /// One call of `read_completion`.
    pub fn read(&mut self, subject: &mut impl Subject, random: &mut Random, tally: &mut Tally) -> Compared {
        self.live(random);
        let is_noise = random.percent(4);
        let completion = if is_noise {
            CompletionMaker::noise(random)
        } else {
            self.completions.completion(random)
        };
        self.completion.set(0, &completion.bytes);
        self.completion.lend(completion.length);
        let heard = read_completion(&mut self.completion, subject)?;
        tally.add_if(is_noise, Group::Noise, 10);
        count_hear(completion.as_slice(), heard, tally);
        Ok(())
    }

    /// Now and then, gives the buffers other starts and other margins.
    fn live(&mut self, random: &mut Random) {
        if self.calls_left == 0 {
            self.calls_left = CALLS_OF_A_LIFE;
            self.completion.refill(|bytes| random.fill(bytes));
            self.completion.shift(random.below(8));
            self.buffer.shift(random.below(8));
        }
        self.calls_left -= 1;
    }
}
