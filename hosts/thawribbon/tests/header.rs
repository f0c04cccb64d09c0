//! The crate says what thawribbon.h says: the same constants, and the same number and text for each refusal.
#![forbid(unsafe_code)]

use std::collections::BTreeMap;
use thawribbon::raw::{Groups, judge, read_completion};
use thawribbon::{Alternate, Completion, Edition, List, NotAnswered, NotNamed, NotRouted, Refusal};

const HEADER: &str = include_str!("../../include/thawribbon.h");

/// The refusals of the crate, under the names that the header has for them.
const REFUSALS: [(&str, Refusal); 14] = [
    ("THAWRIBBON_BAD_DESCRIPTION", Refusal::BadDescription),
    ("THAWRIBBON_NO_ROOM", Refusal::NoRoom),
    ("THAWRIBBON_SHORT_PACKET", Refusal::ShortPacket),
    ("THAWRIBBON_UNKNOWN_TYPE", Refusal::UnknownType),
    ("THAWRIBBON_WRONG_LENGTH", Refusal::WrongLength),
    ("THAWRIBBON_WRONG_FIELD", Refusal::WrongField),
    ("THAWRIBBON_OTHER_STRUCTURE", Refusal::OtherStructure),
    ("THAWRIBBON_WRONG_EXTENT", Refusal::WrongExtent),
    ("THAWRIBBON_NOT_ONE_FUNCTION", Refusal::NotOneFunction),
    ("THAWRIBBON_BELOW_FLOOR", Refusal::BelowFloor { place: None }),
    ("THAWRIBBON_COMES_BACK", Refusal::ComesBack { place: 0x100 }),
    ("THAWRIBBON_WRONG_GROUPS", Refusal::WrongGroups),
    ("THAWRIBBON_NO_LAYOUT", Refusal::NoLayout),
    ("THAWRIBBON_NOT_ACCEPTED", Refusal::NotAccepted),
];

/// What is fixed is there when a program is compiled.
const NUMBER: u8 = Refusal::NotOneFunction.number();
const TEXT: &str = Refusal::ShortPacket.text();
const MAXIMA: [usize; 3] = [
    List::Compatible.maximum(),
    List::Extended.maximum(),
    List::Trusted.maximum(),
];

#[test]
fn numbers_texts_and_maxima_can_stand_in_constants() {
    assert_eq!(
        (NUMBER, TEXT),
        (10, "the packet or the completion has fewer than 12 bytes")
    );
    assert_eq!(MAXIMA, [48, 960, 1022]);
}

/// The header's lines between one that has a text and the next that is another.
fn lines_between(from: &str, to: &'static str) -> impl Iterator<Item = &'static str> {
    let after = HEADER.lines().skip_while(move |line| !line.contains(from)).skip(1);
    after.take_while(move |line| *line != to)
}

/// The constants that the header defines: those with a value that is a number or a text.
fn defined() -> BTreeMap<&'static str, &'static str> {
    let lines = HEADER
        .lines()
        .filter_map(|line| line.strip_prefix("#define THAWRIBBON_"));
    lines
        .filter_map(|line| line.split_once(' '))
        .filter(|(_, value)| value.starts_with(|first: char| first.is_ascii_digit() || first == '"'))
        .collect()
}

/// A byte as the header writes it.
fn hex(byte: u8) -> String {
    format!("0x{byte:02X}")
}

#[test]
fn the_constants_are_those_of_the_header() {
    let version = format!("\"{}\"", thawribbon::VERSION);
    let expected = [
        ("VERSION", version.as_str()),
        ("VERSION_MAJOR", env!("CARGO_PKG_VERSION_MAJOR")),
        ("VERSION_MINOR", env!("CARGO_PKG_VERSION_MINOR")),
        ("VERSION_PATCH", env!("CARGO_PKG_VERSION_PATCH")),
        ("SPACE", &thawribbon::SPACE.to_string()),
        ("REPLY", &thawribbon::REPLY.to_string()),
        ("LEAVING", &thawribbon::LEAVING.to_string()),
        ("PORTS", &thawribbon::PORTS.to_string()),
        ("GROUPS", &thawribbon::GROUPS.to_string()),
        ("MULTICAST_ID", &format!("0x{:04X}", thawribbon::MULTICAST_ID)),
        ("REQUEST", &thawribbon::REQUEST.to_string()),
        ("DATA", &thawribbon::DATA.to_string()),
        ("STATUS", &thawribbon::STATUS.to_string()),
        ("STATUS_SUCCESSFUL", &hex(thawribbon::STATUS_SUCCESSFUL)),
        ("STATUS_UNSUPPORTED", &hex(thawribbon::STATUS_UNSUPPORTED)),
        ("EDITION_1", &thawribbon::EDITION_1.to_string()),
        ("EDITION_2", &thawribbon::EDITION_2.to_string()),
        ("TYPE0_READ", &hex(thawribbon::TYPE0_READ)),
        ("TYPE0_WRITE", &hex(thawribbon::TYPE0_WRITE)),
        ("TYPE1_READ", &hex(thawribbon::TYPE1_READ)),
        ("TYPE1_WRITE", &hex(thawribbon::TYPE1_WRITE)),
        ("TRUSTED_READ", &hex(thawribbon::TRUSTED_READ)),
        ("TRUSTED_WRITE", &hex(thawribbon::TRUSTED_WRITE)),
        ("COMPATIBLE_MAXIMUM", &thawribbon::COMPATIBLE_MAXIMUM.to_string()),
        ("EXTENDED_MAXIMUM", &thawribbon::EXTENDED_MAXIMUM.to_string()),
        ("TRUSTED_MAXIMUM", &thawribbon::TRUSTED_MAXIMUM.to_string()),
    ];
    assert_eq!(defined(), BTreeMap::from(expected));
}

/// The crate's editions are the header's, with the numbers that document 02 has.
#[test]
fn the_editions_are_those_of_the_header() {
    let defined = defined();
    let numbers = [Edition::One, Edition::Two].map(|edition| edition.number().to_string());
    assert_eq!(numbers, ["1", "2"]);
    assert_eq!(numbers, ["EDITION_1", "EDITION_2"].map(|name| defined[name]));
}

/// The marks of a space without any, in both.
#[test]
fn no_marks_are_those_of_the_header() {
    assert_eq!(thawribbon::NO_MARKS, [0; thawribbon::SPACE]);
    assert!(HEADER.contains("static const thawribbon_bytes thawribbon_no_marks = {{0}};"));
}

/// The names and the numbers of an enum of the header.
fn enumerated(name: &str) -> BTreeMap<&'static str, u8> {
    let beginning = format!("enum {name} {{");
    let after = HEADER.lines().skip_while(|line| !line.contains(&beginning)).skip(1);
    after
        .take_while(|line| !line.starts_with('}'))
        .filter_map(|line| line.trim().trim_end_matches(',').split_once(" = "))
        .map(|(name, number)| (name, number.parse().expect("a number")))
        .collect()
}

#[test]
fn the_numbers_are_those_of_the_header() {
    let numbers = enumerated("thawribbon_number");
    let expected = REFUSALS.map(|(name, refusal)| (name, refusal.number()));
    let served = [("THAWRIBBON_SERVED", 0)];
    assert_eq!(numbers, served.into_iter().chain(expected).collect());
}

#[test]
fn the_texts_are_those_of_the_header() {
    let mut texts: BTreeMap<&str, String> = BTreeMap::new();
    let mut name = "";
    for line in lines_between("char *thawribbon_text(", "}").map(str::trim) {
        if let Some(case) = line.strip_prefix("case ") {
            name = case.trim_end_matches(':');
        } else if line == "default:" {
            name = line;
        } else if let Some((_, text)) = line.split_once('"') {
            let text = text.trim_end_matches([';', '"']);
            texts.entry(name).or_default().push_str(text);
        }
    }
    assert!(texts.remove("THAWRIBBON_SERVED").is_some() && texts.remove("default:").is_some());
    assert_eq!(
        texts,
        REFUSALS
            .map(|(name, refusal)| (name, refusal.text().to_string()))
            .into()
    );
}

#[test]
fn what_has_no_port_is_said_in_the_words_of_the_header() {
    let text = format!("\"{}\"", NotRouted::Unsupported);
    assert!(HEADER.contains(&text), "{text}");
}

#[test]
fn what_a_record_does_not_name_is_said_in_the_words_of_the_header() {
    let record = Alternate { function: 1, device: 3 };
    for not_named in [NotNamed::Uncaptured(record), NotNamed::Other(record)] {
        let text = not_named.to_string();
        let (words, _) = text.split_once(" (").expect("what the record says stands behind");
        assert!(HEADER.contains(&format!("\"{words}\"")), "{text}");
    }
}

/// What `raw::read_completion` gives for each is what the header names.
#[test]
fn what_is_said_is_what_the_header_names() {
    let shown = [0x4A, 0, 0, 1, 5, 0x18, 0x00, 4, 1, 0, 8, 0, 8, 0, 0, 0];
    let completion = |status| [0x0A, 0, 0, 0, 5, 0x18, status, 4, 1, 0, 8, 0];
    let said = |bytes: &[u8]| read_completion(bytes).said;
    let expected = [
        ("THAWRIBBON_SAID_NOTHING", said(&[])),
        ("THAWRIBBON_SAID_DATA", said(&shown)),
        ("THAWRIBBON_SAID_DONE", said(&completion(0x00))),
        ("THAWRIBBON_SAID_UNSUPPORTED", said(&completion(0x20))),
    ];
    assert_eq!(enumerated("thawribbon_said"), BTreeMap::from(expected));
}

/// What `raw::judge` gives for each is what the header names.
#[test]
fn what_is_judged_is_what_the_header_names() {
    let port = Groups {
        enable: 1,
        index: 12,
        ..Groups::ZEROS
    };
    let blocked = Groups { block_all: 1, ..port };
    let verdict = |ports: &[Groups], address| judge(ports, 0, address).verdict;
    let expected = [
        ("THAWRIBBON_JUDGED_NOTHING", verdict(&[], 0)),
        ("THAWRIBBON_JUDGED_NO_HIT", verdict(&[port], 0x1000)),
        ("THAWRIBBON_JUDGED_DROPPED", verdict(&[blocked], 0)),
        ("THAWRIBBON_JUDGED_LEAVES", verdict(&[port], 0)),
    ];
    assert_eq!(enumerated("thawribbon_judgement"), BTreeMap::from(expected));
}

#[test]
fn a_completion_of_another_request_is_said_in_the_words_of_the_header() {
    let completion = Completion::read(&[0x0A, 0, 0, 0, 5, 0x18, 0, 4, 1, 0, 8, 0]).expect("it is done");
    let text = NotAnswered::Other(completion).to_string();
    let (words, _) = text.split_once(" (").expect("whose it is stands behind");
    assert!(HEADER.contains(&format!("\"{words}\"")), "{text}");
}
