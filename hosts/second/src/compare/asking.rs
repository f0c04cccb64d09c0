//! The two steps of the asking side: each done by the model and by the subject, and compared.

use thawribbon::raw::{Heard, Parts, Written};

use super::difference::Difference;
use super::reference::Reference;
use super::subject::Subject;
use crate::twin::Twin;

/// Has a request written into a buffer as it is lent.
pub fn write_request(
    parts: Parts,
    buffer: &mut Twin<u8>,
    subject: &mut impl Subject,
) -> Result<Written, Box<Difference>> {
    buffer.remember();
    let ours = Reference.write_request(parts, buffer.ours_mut());
    let theirs = subject.write_request(parts, buffer.theirs_mut());
    if ours == theirs && buffer.agrees() {
        return Ok(ours);
    }
    let difference = Difference::new("write_request", ours, theirs)
        .input("parts", parts)
        .bytes("buffer as lent", buffer.before())
        .bytes("buffer of the model", buffer.ours())
        .bytes("buffer of the subject", buffer.theirs())
        .look("buffer", buffer);
    Err(Box::new(difference))
}

/// Has a completion read as it is lent.
pub fn read_completion(completion: &mut Twin<u8>, subject: &mut impl Subject) -> Result<Heard, Box<Difference>> {
    let ours = Reference.read_completion(completion.ours());
    let theirs = subject.read_completion(completion.theirs());
    if ours == theirs && completion.agrees() {
        return Ok(ours);
    }
    let difference = Difference::new("read_completion", ours, theirs)
        .bytes("completion", completion.ours())
        .look("completion", completion);
    Err(Box::new(difference))
}
