//! Which headers of a chain lose their ID.

use std::ops::Range;

use super::random::Random;

/// Some of three: the first header, one between, and the last. Those that are not there are left out.
pub fn draw_nulls(headers: &Range<usize>, random: &mut Random) -> [Option<usize>; 3] {
    let set = random.within(1, 7);
    let length = headers.len();
    let first = (set & 1 != 0 && length > 0).then_some(headers.start);
    let between = (set & 2 != 0 && length > 2).then(|| random.within(headers.start + 1, headers.end - 2));
    let last = (set & 4 != 0 && length > 1).then(|| headers.end - 1);
    [first, between, last]
}

#[cfg(test)]
mod tests {
    use super::draw_nulls;
    use crate::generate::Random;

    #[test]
    fn every_set_of_places_is_drawn_and_no_place_outside() {
        let mut random = Random::new(1);
        for (length, sets) in [(0, 0), (1, 1), (2, 3), (3, 7), (40, 7)] {
            let headers = 5..5 + length;
            let mut met = [false; 8];
            for _ in 0..2000 {
                let places: Vec<usize> = draw_nulls(&headers, &mut random).into_iter().flatten().collect();
                assert!(places.iter().all(|place| headers.contains(place)) && places.is_sorted());
                let inner = places.iter().any(|&place| place > 5 && place + 1 < headers.end);
                let last = length > 1 && places.contains(&(headers.end - 1));
                met[usize::from(places.contains(&5)) + 2 * usize::from(inner) + 4 * usize::from(last)] = true;
            }
            assert_eq!(met[1..].iter().filter(|&&met| met).count(), sets, "{length} headers");
        }
    }
}
