//! A switch's multicast: the Multicast capability of a port, and what becomes of a packet for an address.

use crate::Offset;
use crate::port_set::PortSet;
use crate::raw::{self, Groups};
use crate::refusal::{Refusal, served};

impl Groups {
    /// Reads the Multicast capability at an offset of a port's space of 4,096 bytes.
    ///
    /// What is refused gives no fields at all. In C it gives seven zeros, which are also the fields of a capability that is
    /// not enabled: so take a port's fields from here, and not from [`raw::multicast`] or [`Groups::ZEROS`].
    ///
    /// ```
    /// use thawribbon::{Groups, Refusal};
    ///
    /// // Groups 0 to 3 of 4 KiB each, from 8_0000_0000h on. A packet of group 2 leaves by this port.
    /// let mut space = [0; 4096];
    /// space[0x100..0x10E].copy_from_slice(&[0x12, 0x00, 0x01, 0x00, 0x3F, 0x00, 0x03, 0x80, 0x0C, 0, 0, 0, 0x08, 0]);
    /// space[0x110] = 0b100;
    /// let groups = Groups::read(&space, 0x100)?;
    /// assert_eq!((groups.max_group, groups.num_group, groups.enable), (63, 3, 1));
    /// assert_eq!((groups.index, groups.base), (12, 0x8_0000_0000));
    /// assert_eq!((groups.receive, groups.block_all), (0b100, 0));
    ///
    /// // Four groups where there may be three; and another offset.
    /// space[0x104] = 2;
    /// assert_eq!(Groups::read(&space, 0x100), Err(Refusal::WrongGroups));
    /// assert_eq!(Groups::read(&space, 0x104), Err(Refusal::OtherStructure));
    /// # Ok::<(), Refusal>(())
    /// ```
    ///
    /// # Errors
    ///
    /// The first of these that applies:
    ///
    /// - [`Refusal::BadDescription`]: the space isn't 4,096 bytes, or the offset isn't a multiple of 4 from 100h to FFCh.
    /// - [`Refusal::OtherStructure`]: the ID isn't 0012h, or the version isn't 1h.
    /// - [`Refusal::WrongExtent`]: fewer than 28h bytes are left.
    /// - [`Refusal::WrongGroups`]: Num Group is over Max Group, or Index Position is under 12 and Enable is set.
    #[inline]
    pub fn read(space: &[u8], at: Offset) -> Result<Self, Refusal> {
        let mut groups = Groups::ZEROS;
        served(raw::multicast(space, at.into(), &mut groups))?;
        Ok(groups)
    }
}

/// What becomes of a packet for an address.
#[derive(Clone, Copy, Debug, PartialEq, Eq, Hash)]
#[must_use = "it says what becomes of the packet, and by which ports it leaves"]
pub enum Judged {
    /// No hit: the address is in no group of the port that the packet enters by, or that port is not enabled.
    NoHit,
    /// It hits a group, and is dropped where it enters: that port's Block All bit for the group is set.
    Dropped {
        /// The group that is hit, 0 to 63.
        group: u8,
    },
    /// It hits a group, and leaves by every other port whose own Receive bit for the group is set.
    Leaves {
        /// The group that is hit, 0 to 63.
        group: u8,
        /// The ports that it leaves by. There may be none.
        ports: PortSet,
    },
}

/// Judges an address: what becomes of a packet for it that enters a switch by one of its ports, given each port's Multicast
/// capability.
///
/// Where the entering port is enabled, an address at or above its base hits the group that is the whole part of (address -
/// base) / 2 to the power of its Index Position, if that is at most its Num Group. Of the other ports nothing counts but
/// their Receive bits.
///
/// ```
/// use thawribbon::{Groups, Judged, Refusal, judge};
///
/// // Three ports with the same four groups. The second and the third receive group 2, and the third blocks group 3.
/// let mut space = [0; 4096];
/// space[0x100..0x10E].copy_from_slice(&[0x12, 0x00, 0x01, 0x00, 0x3F, 0x00, 0x03, 0x80, 0x0C, 0, 0, 0, 0x08, 0]);
/// let mut ports = [Groups::read(&space, 0x100)?; 3];
/// (ports[1].receive, ports[2].receive, ports[2].block_all) = (0b0100, 0b0100, 0b1000);
///
/// // The last address of group 2, by each port; and the first address behind group 3.
/// let Judged::Leaves { group, ports: by } = judge(&ports, 0, 0x8_0000_2FFF)? else { panic!("it does not leave") };
/// assert_eq!((group, by.iter().collect()), (2, vec![1, 2]));
/// let Judged::Leaves { ports: by, .. } = judge(&ports, 1, 0x8_0000_2FFF)? else { panic!("it does not leave") };
/// assert!(by.contains(2) && !by.contains(1));
/// assert_eq!(judge(&ports, 2, 0x8_0000_3000)?, Judged::Dropped { group: 3 });
/// assert_eq!(judge(&ports, 0, 0x8_0000_4000)?, Judged::NoHit);
///
/// // There is no fourth port.
/// assert_eq!(judge(&ports, 3, 0x8_0000_2FFF), Err(Refusal::BadDescription));
/// # Ok::<(), Refusal>(())
/// ```
///
/// # Errors
///
/// [`Refusal::BadDescription`]: the list has over 32 ports, `entering` is no place in it, or the fields of any port are such
/// as [`Groups::read`] gives for no space: Max Group or Index Position over 63, Enable over 1, a bit of the base below bit
/// 12, or what is refused there with [`Refusal::WrongGroups`].
///
/// # Panics
///
/// Where the archive gives a verdict that is none. The library of this crate gives none such.
#[inline]
pub fn judge(ports: &[Groups], entering: usize, address: u64) -> Result<Judged, Refusal> {
    let answer = raw::judge(ports, entering, address);
    served(answer.number)?;
    let group = answer.group;
    Ok(match answer.verdict {
        1 => Judged::NoHit,
        2 => Judged::Dropped { group },
        3 => Judged::Leaves {
            group,
            ports: PortSet::of(answer.ports),
        },
        verdict => panic!("libthawribbon.a gave verdict {verdict}, which is none"),
    })
}
