//! Counts calls by class, prints a line for each group, and tells whether any class stayed below its minimum.

use std::fmt;

use super::group::{Classes, Group, Line};
use super::table::TABLE;

/// How often each class was met.
pub struct Tally {
    lines: &'static [Line],
    first: [usize; TABLE.len()],
    counts: Vec<u64>,
    calls: u64,
}

impl Tally {
    /// A tally of all groups.
    pub fn new() -> Self {
        Self::of(&TABLE)
    }

    /// A tally by a table that has the groups of [`TABLE`], with minima that may differ.
    fn of(lines: &'static [Line; TABLE.len()]) -> Self {
        let mut first = [0; TABLE.len()];
        let mut classes = 0;
        for (place, line) in lines.iter().enumerate() {
            first[place] = classes;
            classes += line.classes.count();
        }
        Self {
            lines,
            first,
            counts: vec![0; classes],
            calls: 0,
        }
    }

    /// Counts a call of the run. Each is counted once, whatever classes it belongs to.
    pub fn call(&mut self) {
        self.calls += 1;
    }

    /// Counts a call for one class of a group.
    pub fn add(&mut self, group: Group, class: usize) {
        let line = group as usize;
        debug_assert!(
            class < self.lines[line].classes.count(),
            "{group:?} has no class {class}"
        );
        self.counts[self.first[line] + class] += 1;
    }

    /// Counts a call for a class where a condition holds.
    pub fn add_if(&mut self, condition: bool, group: Group, class: usize) {
        if condition {
            self.add(group, class);
        }
    }

    /// Whether every class was met as often as its minimum says for the calls made.
    pub fn is_complete(&self) -> bool {
        self.lines
            .iter()
            .all(|line| self.smallest(line).1 >= self.minimum(line))
    }

    /// The least count of each class of a group. It grows with the calls. A run under a million of them is too short
    /// for chance to be even, and asks for nothing.
    fn minimum(&self, line: &Line) -> u64 {
        if self.calls < 1_000_000 {
            return 0;
        }
        (u128::from(line.per_million) * u128::from(self.calls) / 1_000_000) as u64
    }

    /// The class that was met least, and how often it was.
    fn smallest(&self, line: &Line) -> (usize, u64) {
        let from = self.first[line.group as usize];
        let counts = &self.counts[from..from + line.classes.count()];
        let least = counts.iter().enumerate().min_by_key(|(_, count)| **count);
        least.map_or((0, 0), |(class, &count)| (class, count))
    }
}

impl Default for Tally {
    fn default() -> Self {
        Self::new()
    }
}

impl fmt::Display for Tally {
    fn fmt(&self, formatter: &mut fmt::Formatter<'_>) -> fmt::Result {
        let (title, classes, smallest, minimum) = ("group of classes", "classes", "smallest", "minimum");
        write!(formatter, "{title:<56} {classes:>7} {smallest:>10} {minimum:>10}")?;
        for line in self.lines {
            let (class, count) = self.smallest(line);
            let (title, classes, minimum) = (line.title, line.classes.count(), self.minimum(line));
            write!(formatter, "\n{title:<56} {classes:>7} {count:>10} {minimum:>10}")?;
            match line.classes {
                _ if count >= minimum => {}
                Classes::Numbered(_) => write!(formatter, "  BELOW: class {class}")?,
                Classes::Named(names) => write!(formatter, "  BELOW: {}", names[class])?,
            }
        }
        let all: usize = self.lines.iter().map(|line| line.classes.count()).sum();
        write!(formatter, "\n{all} classes in {} groups", self.lines.len())
    }
}

#[cfg(test)]
mod tests {
    use super::super::group::{Group, Line};
    use super::super::table::TABLE;
    use super::Tally;

    /// A table in which one group asks for more than any run can give.
    static TOO_HIGH: [Line; TABLE.len()] = {
        let mut lines = TABLE;
        let mut place = 0;
        while place < lines.len() {
            lines[place].per_million = 0;
            place += 1;
        }
        lines[Group::PoisonedReads as usize].per_million = 1_000_001;
        lines
    };

    fn after_calls(mut tally: Tally, calls: usize, poisoned: [usize; 2]) -> Tally {
        (0..calls).for_each(|_| tally.call());
        for (class, count) in poisoned.into_iter().enumerate() {
            (0..count).for_each(|_| tally.add(Group::PoisonedReads, class));
        }
        tally
    }

    #[test]
    fn a_minimum_that_is_too_high_fails() {
        let tally = after_calls(Tally::of(&TOO_HIGH), 1_000_000, [1_000_000, 1_000_000]);
        assert!(!tally.is_complete());
        assert!(tally.to_string().contains("BELOW: ordinary"));
        assert!(after_calls(Tally::of(&TOO_HIGH), 1_000_000, [1_000_001, 1_000_001]).is_complete());
    }

    #[test]
    fn one_class_of_a_group_below_fails() {
        let tally = after_calls(Tally::of(&TOO_HIGH), 1_000_000, [2_000_000, 5]);
        assert!(!tally.is_complete());
        assert!(tally.to_string().contains("BELOW: trusted"));
    }

    #[test]
    fn a_class_of_any_group_that_is_never_met_fails() {
        let mut tally = after_calls(Tally::new(), 1_000_000, [0, 0]);
        tally.counts.fill(u64::MAX);
        assert!(tally.is_complete());
        for class in 0..tally.counts.len() {
            tally.counts[class] = 0;
            assert!(!tally.is_complete(), "{tally}");
            tally.counts[class] = u64::MAX;
        }
    }

    #[test]
    fn a_short_run_asks_for_nothing() {
        assert!(Tally::new().is_complete());
        assert!(after_calls(Tally::new(), 999_999, [0, 0]).is_complete());
        assert!(!after_calls(Tally::new(), 1_000_000, [0, 0]).is_complete());
    }
}
