//! Wrong subjects: each is the model with one thing wrong, and the comparison must catch each of them.
//!
//! Were one of these not caught, a library with the same fault would not be caught either.

mod accessing;
mod addressing;
mod admitting;
mod announcing;
mod answering;
mod asker;
mod blanking;
mod bounding;
mod broken;
mod capturing;
mod caster;
mod casting;
mod checking;
mod clearer;
mod clearing;
mod coupler;
mod describing;
mod doubling;
mod dropping;
mod emptying;
mod exceeding;
mod finding;
mod formatting;
mod gatherer;
mod gathering;
mod harness;
mod hearing;
mod judging;
mod laying;
mod leaving;
mod listing;
mod looping;
mod marking;
mod measuring;
mod mixing;
mod ordering;
mod passing;
mod picking;
mod placing;
mod planning;
mod reading;
mod recaller;
mod recalling;
mod refusing;
mod repeating;
mod retrying;
mod returner;
mod returning;
mod reviser;
mod revising;
mod router;
mod routing;
mod serving;
mod sharing;
mod surveyor;
mod swapping;
mod telling;
mod vetting;
mod walker;
mod walking;
mod widening;
mod writing;

use harness::{Wrong, expect_caught, expect_not_caught, expect_two_caught, run_fixed};
use second::compare::{Failure, Library};

#[test]
fn the_right_model_is_not_caught() {
    expect_not_caught(Wrong::nothing());
}

#[test]
fn the_library_is_not_caught() {
    if let Err(failure) = run_fixed(&mut Library) {
        panic!("{failure}");
    }
}

#[test]
fn the_same_seed_gives_the_same_run() {
    let [first, second] = [(); 2].map(|()| run_fixed(&mut Wrong::nothing()).map(|tally| tally.to_string()));
    assert_eq!(first.expect("no difference"), second.expect("no difference"));
}

/// Fails unless what is told of a difference has all of these parts.
fn expect_told(failure: &Failure, parts: &[&str]) {
    let told = failure.to_string();
    for part in ["DIFFERENCE: seed", "case", "first difference"].iter().chain(parts) {
        assert!(told.contains(part), "{part} is missing in:\n{told}");
    }
}

#[test]
fn a_difference_is_told_in_full() {
    let failure = expect_caught(Wrong::serve(answering::unsupported_always), "serve");
    let parts = [
        "entry: serve",
        "description",
        "kept",
        "packet",
        "reply",
        "ordinary words there",
        "trusted marks there",
        "ordinary bytes with a bit marked doubly:",
        "trusted marks: 4096 bytes",
    ];
    expect_told(&failure, &parts);
}

#[test]
fn a_difference_at_the_router_is_told_in_full() {
    let failure = expect_caught(leaving::with_poison_lost(), "route");
    expect_told(
        &failure,
        &["entry: route", "ports:", "packet", "buffer as lent", "buffer, place 2"],
    );
}

#[test]
fn a_difference_of_the_asking_side_is_told_in_full() {
    let failure = expect_caught(writing::with_the_tag_lost(), "write_request");
    expect_told(
        &failure,
        &["entry: write_request", "parts: ", "buffer as lent", "buffer, place 6"],
    );
    let failure = expect_caught(repeating::with_the_tag_lost(), "read_completion");
    expect_told(&failure, &["entry: read_completion", "completion: ", "tag: 0"]);
}

#[test]
fn a_difference_of_a_walk_is_told_in_full() {
    let failure = expect_caught(placing::without_a_place(), "walk_extended");
    expect_told(
        &failure,
        &[
            "entry: walk_extended",
            "pointers from the start on",
            "length of the room",
            "number: ",
            "place: 0",
        ],
    );
}

#[test]
fn a_difference_of_the_multicast_entries_is_told_in_full() {
    let failure = expect_caught(picking::without_the_base(), "multicast");
    expect_told(
        &failure,
        &[
            "entry: multicast",
            "at: ",
            "words at the offset",
            "as lent",
            "of the subject",
            "numbers, place 0",
        ],
    );
    let failure = expect_caught(announcing::with_the_group_lost(), "judge");
    expect_told(
        &failure,
        &["entry: judge", "address: ", "entering: ", "records:", "group: 0"],
    );
}

#[test]
fn a_difference_of_two_functions_is_told_in_full() {
    let failure = expect_two_caught(addressing::with_the_alternates_id(), "serve_pair");
    expect_told(
        &failure,
        &[
            "entry: serve_pair",
            "descriptions of the primary and of the alternate: ",
            "kept: ",
            "packet: ",
            "reply as lent",
            "primary's ordinary words there",
            "primary's trusted marks: 4096 bytes",
            "alternate's ordinary: 4096 bytes",
            "alternate's trusted bytes with a bit marked doubly:",
            "reply, place ",
        ],
    );
    let failure = expect_two_caught(sharing::with_a_reset_of_the_primary_only(), "reset_pair");
    expect_told(&failure, &["entry: reset_pair", "kept: ", "captured: "]);
}

#[test]
fn a_difference_of_a_layout_is_told_in_full() {
    let failure = expect_caught(planning::without_rounding(), "plan_layout");
    expect_told(
        &failure,
        &[
            "entry: plan_layout",
            "structures (ID version length): ",
            "offsets of the model",
            "offsets of the subject",
            "offsets, place ",
        ],
    );
    let failure = expect_caught(laying::with_the_last_pointer_left(), "write_layout");
    expect_told(
        &failure,
        &["entry: write_layout", "space as lent: 4096 bytes", "space, place "],
    );
}
