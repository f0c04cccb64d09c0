//! Good lists of ports by construction: ranges that lie beside each other, with gaps or without, in any order.

use thawribbon::raw::Port;

use super::random::Random;

/// The buses that there are.
const BUSES: usize = 256;

/// Which of the widths and of the gaps may be more than the least.
#[derive(Clone, Copy)]
enum Layout {
    /// Widths and gaps are as they come.
    Free,
    /// There is no gap but before the first and behind the last range.
    Touching,
    /// There is one bus between any two ranges.
    Spaced,
    /// There is no gap at all: every bus is in a range.
    Covering,
    /// Every range has one bus.
    SingleBuses,
    /// Some ranges touch, some have one bus.
    Mixed,
}

const LAYOUTS: [Layout; 7] = [
    Layout::Free,
    Layout::Free,
    Layout::Touching,
    Layout::Spaced,
    Layout::Covering,
    Layout::SingleBuses,
    Layout::Mixed,
];

/// A good list of so many ports, up to 256: no two of its ranges meet.
pub fn good_list(count: usize, random: &mut Random) -> Vec<Port> {
    let layout = random.pick(&LAYOUTS);
    let mut ports = ranges(count, layout, random);
    match random.below(5) {
        0 => {}
        1 => ports.reverse(),
        _ => random.shuffle(&mut ports),
    }
    support(&mut ports, random);
    ports
}

/// So many ranges in ascending order. Each has one bus at least; what is left of the 256 buses goes to the widths and
/// to the gaps before, between and behind them, as far as the layout opens these.
fn ranges(count: usize, layout: Layout, random: &mut Random) -> Vec<Port> {
    let parts = 2 * count + 1;
    let open: Vec<bool> = (0..parts).map(|part| is_open(layout, part, parts, random)).collect();
    let spaced = matches!(layout, Layout::Spaced) && count <= BUSES / 2;
    let between = usize::from(spaced);
    let needed = count + between * count.saturating_sub(1);
    let mut shares = shares(BUSES - needed, &open, random).into_iter();
    let mut next = 0;
    let mut ports = Vec::with_capacity(count);
    for _ in 0..count {
        let secondary = next + shares.next().unwrap_or(0);
        let subordinate = secondary + shares.next().unwrap_or(0);
        ports.push(Port {
            secondary: secondary as u8,
            subordinate: subordinate as u8,
            tcs: false,
        });
        next = subordinate + 1 + between;
    }
    ports
}

/// Whether a part may have more than the least. Gaps and widths take turns; the first and the last part are gaps.
fn is_open(layout: Layout, part: usize, parts: usize, random: &mut Random) -> bool {
    let is_gap = part % 2 == 0;
    let is_outside = part == 0 || part + 1 == parts;
    match layout {
        Layout::Free => true,
        Layout::Touching | Layout::Spaced => !is_gap || is_outside,
        Layout::Covering => !is_gap,
        Layout::SingleBuses => is_gap,
        Layout::Mixed => is_outside || random.percent(50),
    }
}

/// Shares a number out among the parts that are open, at random.
fn shares(whole: usize, open: &[bool], random: &mut Random) -> Vec<usize> {
    let takers = open.iter().filter(|&&open| open).count();
    let mut cuts: Vec<usize> = (1..takers).map(|_| random.below(whole + 1)).collect();
    cuts.sort_unstable();
    cuts.push(whole);
    let mut cuts = cuts.into_iter();
    let mut before = 0;
    let mut share = |&open: &bool| {
        let cut = if open { cuts.next().unwrap_or(whole) } else { before };
        cut - std::mem::replace(&mut before, cut)
    };
    open.iter().map(&mut share).collect()
}

/// Which ports support TCS routing: all, none, some, just one, or all but one.
fn support(ports: &mut [Port], random: &mut Random) {
    let style = random.weighted(&[25, 10, 45, 10, 10]);
    let one = random.below(ports.len() + 1);
    for (place, port) in ports.iter_mut().enumerate() {
        port.tcs = match style {
            0 => true,
            1 => false,
            2 => random.percent(60),
            3 => place == one,
            _ => place != one,
        };
    }
}

#[cfg(test)]
mod tests {
    use super::good_list;
    use crate::generate::Random;

    #[test]
    fn no_range_of_a_good_list_is_empty_and_no_bus_is_in_two() {
        let mut random = Random::new(1);
        for count in (0..=40).chain([256]).cycle().take(20_000) {
            let ports = good_list(count, &mut random);
            let mut taken = [false; 256];
            for port in &ports {
                assert!(port.secondary <= port.subordinate);
                let buses = usize::from(port.secondary)..=usize::from(port.subordinate);
                assert!(!taken[buses.clone()].contains(&true), "{ports:?}");
                taken[buses].fill(true);
            }
            assert_eq!(ports.len(), count);
        }
    }
}
