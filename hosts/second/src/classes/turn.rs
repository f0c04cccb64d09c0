//! Where the last header that a walk meets points: what tells a long chain from every loop of as many headers.

use super::chain::Ending;

/// How many different headers a walk meets.
#[derive(Clone, Copy, Debug, PartialEq, Eq)]
enum Headers {
    One,
    Two,
    Three,
    /// More than three, and fewer than the maximum by two or more.
    More,
    AllButOne,
    All,
}

/// Where the last of them points.
#[derive(Clone, Copy, Debug, PartialEq, Eq)]
enum Turn {
    End,
    Itself,
    /// To the header before it, which is not the start.
    Before,
    /// To a header further back, which is not the start either.
    Between,
    /// To the start, from another header.
    Start,
    Below,
}

/// The pairs that there are. A pointer to the start is counted as that also where the start is the header before.
const TURNS: [(Headers, Turn, &str); 30] = [
    (Headers::One, Turn::End, "1 header, to the end"),
    (Headers::One, Turn::Itself, "1 header, to itself"),
    (Headers::One, Turn::Below, "1 header, below the floor"),
    (Headers::Two, Turn::End, "2 headers, to the end"),
    (Headers::Two, Turn::Itself, "2 headers, to itself"),
    (Headers::Two, Turn::Start, "2 headers, to the start"),
    (Headers::Two, Turn::Below, "2 headers, below the floor"),
    (Headers::Three, Turn::End, "3 headers, to the end"),
    (Headers::Three, Turn::Itself, "3 headers, to itself"),
    (Headers::Three, Turn::Before, "3 headers, to the one before"),
    (Headers::Three, Turn::Start, "3 headers, to the start"),
    (Headers::Three, Turn::Below, "3 headers, below the floor"),
    (Headers::More, Turn::End, "more headers, to the end"),
    (Headers::More, Turn::Itself, "more headers, to itself"),
    (Headers::More, Turn::Before, "more headers, to the one before"),
    (Headers::More, Turn::Between, "more headers, to one further back"),
    (Headers::More, Turn::Start, "more headers, to the start"),
    (Headers::More, Turn::Below, "more headers, below the floor"),
    (Headers::AllButOne, Turn::End, "max - 1 headers, to the end"),
    (Headers::AllButOne, Turn::Itself, "max - 1 headers, to itself"),
    (Headers::AllButOne, Turn::Before, "max - 1 headers, to the one before"),
    (
        Headers::AllButOne,
        Turn::Between,
        "max - 1 headers, to one further back",
    ),
    (Headers::AllButOne, Turn::Start, "max - 1 headers, to the start"),
    (Headers::AllButOne, Turn::Below, "max - 1 headers, below the floor"),
    (Headers::All, Turn::End, "max headers, to the end"),
    (Headers::All, Turn::Itself, "max headers, to itself"),
    (Headers::All, Turn::Before, "max headers, to the one before"),
    (Headers::All, Turn::Between, "max headers, to one further back"),
    (Headers::All, Turn::Start, "max headers, to the start"),
    (Headers::All, Turn::Below, "max headers, below the floor"),
];

/// The names of the pairs, in their order.
pub const TURN_NAMES: &[&str] = &{
    let mut names = [""; TURNS.len()];
    let mut place = 0;
    while place < names.len() {
        names[place] = TURNS[place].2;
        place += 1;
    }
    names
};

/// The place of a walk among the pairs; none where it meets no header.
pub fn turn_place(ending: Ending, maximum: usize) -> Option<usize> {
    let (met, turn) = match ending {
        Ending::End { count } => (count, Turn::End),
        Ending::Below { steps, .. } => (steps, Turn::Below),
        Ending::Loop { tail, length } => (tail + length, turn_back(tail, length)),
    };
    let headers = match met {
        0 => return None,
        1 => Headers::One,
        2 => Headers::Two,
        3 => Headers::Three,
        _ if met == maximum => Headers::All,
        _ if met + 1 == maximum => Headers::AllButOne,
        _ => Headers::More,
    };
    let place = TURNS.iter().position(|&(some, one, _)| (some, one) == (headers, turn));
    Some(place.expect("every walk is one of the pairs"))
}

const fn turn_back(tail: usize, length: usize) -> Turn {
    match (tail, length) {
        (_, 1) => Turn::Itself,
        (0, _) => Turn::Start,
        (_, 2) => Turn::Before,
        _ => Turn::Between,
    }
}

#[cfg(test)]
mod tests {
    use super::{Ending, TURNS, turn_place};

    #[test]
    fn every_walk_has_its_pair_and_every_pair_a_walk() {
        for maximum in [48, 960, 1022] {
            let mut met = [false; TURNS.len()];
            let mut meet = |ending| met[turn_place(ending, maximum).expect("a header is met")] = true;
            for headers in 1..=maximum {
                meet(Ending::End { count: headers });
                meet(Ending::Below {
                    steps: headers,
                    offset: 4,
                });
                for length in 1..=headers {
                    meet(Ending::Loop {
                        tail: headers - length,
                        length,
                    });
                }
            }
            assert!(!met.contains(&false));
            assert_eq!(turn_place(Ending::End { count: 0 }, maximum), None);
        }
    }
}
