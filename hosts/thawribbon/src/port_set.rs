//! A set of a switch's ports, by their places in its list.

use crate::constants::PORTS;
use std::fmt;
use std::iter::FusedIterator;

/// The ports that a packet leaves by. A port is its place in the list, 0 to 31.
///
/// ```
/// use thawribbon::{Groups, Judged, PORTS, Refusal, judge};
///
/// // 32 ports with one group, from address 0 on; of them 3 and 31 receive it.
/// let mut ports = [Groups { enable: 1, index: 12, ..Groups::ZEROS }; PORTS];
/// (ports[3].receive, ports[31].receive) = (1, 1);
///
/// let Judged::Leaves { ports: by, .. } = judge(&ports, 0, 0)? else { panic!("it does not leave") };
/// assert!(by.contains(3) && by.contains(31) && !by.contains(4));
/// for port in by {
///     println!("it leaves by port {port}");
/// }
/// assert_eq!((by.len(), by.bits(), format!("{by:?}").as_str()), (2, 0x8000_0008, "{3, 31}"));
///
/// // By the port where it enters it never leaves.
/// let Judged::Leaves { ports: by, .. } = judge(&ports, 31, 0)? else { panic!("it does not leave") };
/// assert_eq!(by.iter().collect::<Vec<_>>(), [3]);
/// # Ok::<(), Refusal>(())
/// ```
#[derive(Clone, Copy, Default, PartialEq, Eq, Hash)]
pub struct PortSet {
    bits: u32,
}

impl PortSet {
    /// The set that has port `k` where bit `k` is 1.
    #[inline]
    pub(crate) const fn of(bits: u32) -> Self {
        PortSet { bits }
    }

    /// Whether the port at this place is in the set. Any number may be given: no port from 32 on is.
    #[must_use]
    #[inline]
    pub const fn contains(self, port: usize) -> bool {
        port < PORTS && self.bits >> port & 1 == 1
    }

    /// Whether there is no port in the set.
    #[must_use]
    #[inline]
    pub const fn is_empty(self) -> bool {
        self.bits == 0
    }

    /// How many ports there are in the set.
    #[must_use]
    #[inline]
    pub const fn len(self) -> usize {
        self.bits.count_ones() as usize
    }

    /// The set as it is in C: bit `k` is 1 where port `k` is in it.
    #[must_use]
    #[inline]
    pub const fn bits(self) -> u32 {
        self.bits
    }

    /// The ports of the set, the lowest place first.
    #[must_use]
    #[inline]
    pub const fn iter(self) -> PortPlaces {
        PortPlaces { left: self.bits }
    }
}

impl IntoIterator for PortSet {
    type Item = usize;
    type IntoIter = PortPlaces;

    #[inline]
    fn into_iter(self) -> PortPlaces {
        self.iter()
    }
}

impl IntoIterator for &PortSet {
    type Item = usize;
    type IntoIter = PortPlaces;

    #[inline]
    fn into_iter(self) -> PortPlaces {
        self.iter()
    }
}

/// The places of its ports.
impl fmt::Debug for PortSet {
    fn fmt(&self, formatter: &mut fmt::Formatter<'_>) -> fmt::Result {
        formatter.debug_set().entries(self.iter()).finish()
    }
}

/// The ports of a [`PortSet`], by their places in the list, the lowest first.
#[derive(Clone, Debug)]
pub struct PortPlaces {
    left: u32,
}

impl Iterator for PortPlaces {
    type Item = usize;

    #[inline]
    fn next(&mut self) -> Option<usize> {
        if self.left == 0 {
            return None;
        }
        let place = self.left.trailing_zeros() as usize;
        self.left &= self.left - 1;
        Some(place)
    }

    #[inline]
    fn size_hint(&self) -> (usize, Option<usize>) {
        let count = self.left.count_ones() as usize;
        (count, Some(count))
    }
}

impl ExactSizeIterator for PortPlaces {}

impl FusedIterator for PortPlaces {}
