//! What a Dual-BDF record of a board of two functions names: its alternate, or something else.
#![forbid(unsafe_code)]

mod common;

use common::{DUAL_BDF, SPACE};
use std::error::Error;
use thawribbon::{Alternate, Capture, Edition, Function, NO_MARKS, NotNamed, Pair, Refusal, Side, Space};

/// Where the record is.
const AT: u16 = 0x0F4;

/// Asks what a record names that is in the first of four spaces, of a board whose alternate has this number.
fn named(
    spaces: &mut [Vec<u8>; 4],
    alternate: u8,
    captures: [Option<Capture>; 2],
    at: u16,
) -> Result<Alternate, NotNamed> {
    let rules = [0xFF; SPACE];
    let lent = spaces.each_mut().map(|bytes| Space {
        bytes,
        rules: &rules,
        marks: &NO_MARKS,
    });
    let [one, two, three, four] = lent;
    let function = |function| Function {
        function,
        a: 0x104,
        b: 0x00C,
    };
    let mut pair = Pair {
        edition: Edition::One,
        primary: Side::fresh(function((alternate + 1) % 8), one, two),
        alternate: Side::fresh(function(alternate), three, four),
    };
    (pair.primary.capture, pair.alternate.capture) = captures.into();
    pair.dual_bdf(at)
}

/// A board's spaces, with a record for this function and device in the first.
fn with_record(function: u8, device: u8) -> [Vec<u8>; 4] {
    let mut spaces = [(); 4].map(|()| vec![0; SPACE]);
    let mut record = DUAL_BDF;
    (record[10], record[11]) = (1 << function, device);
    spaces[0][usize::from(AT)..][..12].copy_from_slice(&record);
    spaces
}

const fn device(device: u8) -> Option<Capture> {
    Some(Capture { bus: 0x05, device })
}

/// Fresh, one captured, both, and both with different devices; every function and device in the record.
#[test]
fn every_function_and_device_for_every_alternate() {
    let all = (0..8).flat_map(|function| (0..32).map(move |device| (function, device)));
    for (function, own_device) in all {
        let mut spaces = with_record(function, own_device);
        let record = Alternate {
            function,
            device: own_device,
        };
        for alternate in 0..8 {
            let mut asked = |captures| named(&mut spaces, alternate, captures, AT);
            let is_right = |fits: bool| match alternate == function && fits {
                true => Ok(record),
                false => Err(NotNamed::Other(record)),
            };
            let fits = own_device == 3;
            assert_eq!(asked([device(3), None]), is_right(fits));
            assert_eq!(asked([None, device(3)]), is_right(fits));
            assert_eq!(asked([device(3), device(3)]), is_right(fits));
            assert_eq!(asked([device(3), device(4)]), is_right(false));
            assert_eq!(asked([device(4), device(3)]), is_right(false));
            let uncaptured = match alternate == function {
                true => NotNamed::Uncaptured(record),
                false => NotNamed::Other(record),
            };
            assert_eq!(asked([None, None]), Err(uncaptured));
        }
    }
}

/// Only the primary's ordinary space counts.
#[test]
fn no_record_is_refused_as_dual_bdf_refuses_it() {
    let captures = [device(3), device(3)];
    let mut spaces = with_record(1, 3);
    assert!(named(&mut spaces, 1, captures, AT).is_ok());
    for (at, refusal) in [
        (0x040, Refusal::OtherStructure),
        (AT + 1, Refusal::BadDescription),
        (0x100, Refusal::BadDescription),
    ] {
        assert_eq!(named(&mut spaces, 1, captures, at), Err(NotNamed::Refused(refusal)));
    }
    spaces[0][usize::from(AT) + 10] = 0x03;
    let two_bits = NotNamed::Refused(Refusal::NotOneFunction);
    assert_eq!(named(&mut spaces, 1, captures, AT), Err(two_bits));
    spaces.swap(0, 1);
    let none = NotNamed::Refused(Refusal::OtherStructure);
    assert_eq!(named(&mut spaces, 1, captures, AT), Err(none));
    spaces[0].truncate(SPACE - 1);
    let short = NotNamed::Refused(Refusal::BadDescription);
    assert_eq!(named(&mut spaces, 1, captures, AT), Err(short));
}

#[test]
fn what_is_not_named_is_an_error_with_its_words() {
    let record = Alternate {
        function: 5,
        device: 31,
    };
    let other: Box<dyn Error + Send + Sync> = NotNamed::Other(record).into();
    assert_eq!(
        other.to_string(),
        "the record has another function than the alternate's, or another device than was captured (function 5, device 31)"
    );
    assert!(
        NotNamed::Uncaptured(record)
            .to_string()
            .starts_with("the record has the alternate's function, and neither")
    );
    let refused = NotNamed::from(Refusal::NotOneFunction);
    assert_eq!(refused.to_string(), Refusal::NotOneFunction.to_string());
    assert_eq!(
        [NotNamed::Other(record), refused].map(NotNamed::record),
        [Some(record), None]
    );
    assert_eq!(NotNamed::Uncaptured(record).record(), Some(record));
}
