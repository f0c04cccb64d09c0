//! The sizes of loops: a tail of so many headers, and so many over and over.

use super::random::Random;

/// Draws the tail and the length of a loop that has no more headers than the maximum.
pub fn draw_loop(maximum: usize, random: &mut Random) -> (usize, usize) {
    if random.percent(50) {
        by_last_header(maximum, random)
    } else {
        by_sizes(maximum, random)
    }
}

/// First how many headers there are, and then how far back the last of them points: to itself, to the one before it, to
/// the start, or to any.
fn by_last_header(maximum: usize, random: &mut Random) -> (usize, usize) {
    let headers = match random.below(7) {
        few @ 0..3 => few + 1,
        3 => random.within(4, 45),
        4 => random.within(4, maximum - 2),
        5 => maximum - 1,
        _ => maximum,
    };
    let length = match random.below(4) {
        0 => 1,
        1 => headers.min(2),
        2 => headers,
        _ => random.within(1, headers),
    };
    (headers - length, length)
}

/// First how long the loop is, and then its tail: none, a short one, or a long one.
fn by_sizes(maximum: usize, random: &mut Random) -> (usize, usize) {
    let half = maximum / 2;
    let lengths = [(1, 1), (2, 2), (3, 3), (4, 15), (16, half), (half + 1, maximum)];
    let tails = [(0, 0), (1, 1), (2, 15), (16, half), (half + 1, maximum - 1)];
    let (shortest, longest) = random.pick(&lengths);
    let fitting = if shortest > half { &tails[..4] } else { &tails };
    let (least, most) = random.pick(fitting);
    let tail = random.within(least, most.min(maximum - shortest));
    (tail, random.within(shortest, longest.min(maximum - tail)))
}

#[cfg(test)]
mod tests {
    use super::draw_loop;
    use crate::generate::Random;

    #[test]
    fn no_loop_has_more_headers_than_the_maximum() {
        let mut random = Random::new(1);
        for maximum in [48, 960, 1022] {
            for _ in 0..20_000 {
                let (tail, length) = draw_loop(maximum, &mut random);
                assert!(length >= 1 && tail + length <= maximum, "{tail}, {length}");
            }
        }
    }
}
