//! Ways to find the group that an address hits, by request 8/13: right ones and wrong ones.

use thawribbon::raw::Groups;

use crate::caster::{
    Call, Habits, RIGHT, expect_group_caught, expect_judge_caught, group, is_from_the_base_on, judged_by, or_else,
    told, up_to,
};
use crate::harness::expect_not_caught;

fn expect_group_not_caught(group: fn(&Call<'_>) -> Option<u64>) {
    expect_not_caught(judged_by(Habits { group, ..RIGHT }));
}

/// Where the address is from the base on, the number that is found for it in a way, if that is not over Num Group.
fn numbered(call: &Call<'_>, number: impl Fn(&Groups, u64) -> u64) -> Option<u64> {
    let record = call.entered();
    is_from_the_base_on(call)
        .then(|| number(record, call.address))
        .and_then(|number| up_to(number, record.num_group))
}

/// Where the address is from the base on and below an end that is found in a way, the group that it is in.
fn before_an_end(call: &Call<'_>, is_before: impl Fn(&Groups, u64) -> bool) -> Option<u64> {
    let record = call.entered();
    let hits = is_from_the_base_on(call) && is_before(record, call.address);
    hits.then(|| (call.address - record.base) >> record.index & 63)
}

#[test]
fn the_form_of_these_with_nothing_wrong_is_not_caught() {
    expect_not_caught(judged_by(RIGHT));
}

#[test]
fn groups_in_natural_numbers_are_not_caught() {
    expect_group_not_caught(|call| {
        let record = call.entered();
        let distance = i128::from(call.address) - i128::from(record.base);
        let group = distance.div_euclid(1 << record.index);
        let hits = record.enable == 1 && (0..=i128::from(record.num_group)).contains(&group);
        hits.then_some(group as u64)
    });
}

#[test]
fn groups_looked_for_from_window_to_window_are_not_caught() {
    expect_group_not_caught(|call| {
        let record = call.entered();
        let first = |group: u64| u128::from(record.base) + (u128::from(group) << record.index);
        let address = u128::from(call.address);
        let mut groups = 0..=record.num_group * record.enable;
        let found = groups.find(|&group| first(group) <= address && address < first(group + 1));
        found.filter(|_| record.enable == 1)
    });
}

#[test]
fn groups_by_division_are_not_caught() {
    expect_group_not_caught(|call| numbered(call, |record, address| (address - record.base) / (1 << record.index)));
}

/// A base has no bits below a page's, and windows have whole pages.
#[test]
fn pages_in_place_of_addresses_are_not_caught() {
    expect_group_not_caught(|call| {
        let record = call.entered();
        let [page, first] = [call.address >> 12, record.base >> 12];
        let number = page.wrapping_sub(first) >> record.index.saturating_sub(12);
        up_to(number, record.num_group).filter(|_| record.enable == 1 && page >= first)
    });
}

#[test]
fn an_end_in_128_bits_is_not_caught() {
    expect_group_not_caught(|call| {
        before_an_end(call, |record, address| {
            let span = (u128::from(record.num_group) + 1) << record.index;
            u128::from(address) < u128::from(record.base) + span
        })
    });
}

#[test]
fn enable_not_asked_or_asked_otherwise() {
    let others: [fn(&Call<'_>) -> u64; 5] = [
        |_| 1,
        |call| 1 - call.entered().enable,
        |call| call.ports[0].enable,
        |call| call.ports.iter().map(|port| port.enable).max().unwrap_or(0),
        |call| call.ports.iter().map(|port| port.enable).min().unwrap_or(0),
    ];
    for enable in others {
        expect_judge_caught(or_else(move |call, judged| {
            let record = |enable| Groups {
                enable,
                ..*call.entered()
            };
            (judged.number == 0).then(|| told(call, group(&record(enable(call)), call.address)))
        }));
    }
}

/// A number of the record is taken from another port: from the first, the last or the next one.
#[test]
fn a_number_of_another_port() {
    let others: [fn(&Call<'_>) -> usize; 3] = [
        |_| 0,
        |call| call.ports.len() - 1,
        |call| (call.entering + 1) % call.ports.len(),
    ];
    let takes: [fn(Groups, &Groups) -> Groups; 4] = [
        |own, other| Groups {
            base: other.base,
            ..own
        },
        |own, other| Groups {
            index: other.index.max(12),
            ..own
        },
        |own, other| Groups {
            num_group: other.num_group,
            ..own
        },
        |_, other| *other,
    ];
    for other in others {
        for take in takes {
            expect_judge_caught(or_else(move |call, judged| {
                let record = take(*call.ports.get(call.entering)?, &call.ports[other(call)]);
                (judged.number == 0).then(|| told(call, group(&record, call.address)))
            }));
        }
    }
}

#[test]
fn the_base_left_out_or_the_address_before_it_taken() {
    expect_group_caught(|call| group(call.entered(), call.address).filter(|_| call.address > call.entered().base));
    expect_group_caught(|call| {
        let is_before = call.address.checked_add(1) == Some(call.entered().base);
        group(call.entered(), call.address + u64::from(is_before))
    });
}

#[test]
fn another_bound_for_the_group() {
    let bounds: [fn(&Groups) -> Option<u64>; 7] = [
        |record| record.num_group.checked_sub(1),
        |record| Some((record.num_group + 1).min(63)),
        |record| Some(record.max_group),
        |record| record.max_group.checked_sub(1),
        |_| Some(63),
        |record| Some(record.num_group & 31),
        |record| Some(record.num_group.min(31)),
    ];
    for bound in bounds {
        expect_judge_caught(or_else(move |call, judged| {
            let record = call.ports.get(call.entering).filter(|_| judged.number == 0)?;
            let any = Groups {
                max_group: 63,
                num_group: 63,
                ..*record
            };
            let group = bound(record).and_then(|bound| group(&any, call.address).filter(|&group| group <= bound));
            Some(told(call, group))
        }));
    }
}

/// The number of the window loses its high bits.
#[test]
fn a_number_cut_to_fewer_bits() {
    expect_group_caught(|call| numbered(call, |record, address| (address - record.base) >> record.index & 63));
    expect_group_caught(|call| {
        numbered(call, |record, address| {
            u64::from(((address - record.base) >> record.index) as u8)
        })
    });
    expect_group_caught(|call| {
        numbered(call, |record, address| {
            u64::from(((address - record.base) >> record.index) as u16)
        })
    });
    expect_group_caught(|call| {
        numbered(call, |record, address| {
            u64::from(((address - record.base) >> record.index) as u32)
        })
    });
}

/// The number of the window loses one of its bits.
#[test]
fn a_number_without_one_bit() {
    for bit in 0..52 {
        expect_judge_caught(or_else(move |call, judged| {
            let found = |record: &Groups, address: u64| (address - record.base) >> record.index & !(1 << bit);
            (judged.number == 0).then(|| told(call, numbered(call, found)))
        }));
    }
}

#[test]
fn a_distance_cut_to_fewer_bits() {
    expect_group_caught(|call| {
        numbered(call, |record, address| {
            ((address - record.base) & 0xFFFF_FFFF) >> record.index
        })
    });
    expect_group_caught(|call| {
        numbered(call, |record, address| {
            (address - record.base) << 1 >> 1 >> record.index
        })
    });
    expect_group_caught(|call| {
        let [address, base] = [call.address, call.entered().base].map(|number| number & 0xFFFF_FFFF);
        group(
            &Groups {
                base,
                ..*call.entered()
            },
            address,
        )
    });
}

#[test]
fn a_distance_that_begins_anew_below_the_base() {
    expect_group_caught(|call| {
        let record = call.entered();
        let number = call.address.wrapping_sub(record.base) >> record.index;
        up_to(number, record.num_group).filter(|_| record.enable == 1)
    });
}

#[test]
fn addresses_compared_as_signed_numbers() {
    expect_group_caught(|call| {
        let record = call.entered();
        let is_from_the_base_on = record.enable == 1 && call.address as i64 >= record.base as i64;
        let number = call.address.wrapping_sub(record.base) >> record.index;
        up_to(number, record.num_group).filter(|_| is_from_the_base_on)
    });
    expect_group_caught(|call| {
        numbered(call, |record, address| {
            ((address - record.base) as i64 >> record.index) as u64
        })
    });
}

#[test]
fn the_base_and_the_address_compared_by_their_high_halves() {
    expect_group_caught(|call| {
        let record = call.entered();
        let [address, base] = [call.address >> 32, record.base >> 32];
        let number = (address.wrapping_sub(base) << 32) >> record.index;
        up_to(number, record.num_group).filter(|_| record.enable == 1 && address >= base)
    });
}

/// How many addresses all windows have, in 64 bits.
const fn span(record: &Groups) -> u64 {
    (record.num_group + 1).wrapping_mul(1 << record.index)
}

/// As [`span`], and the most that 64 bits hold where it is more.
const fn at_most(record: &Groups) -> u64 {
    (record.num_group + 1).saturating_mul(1 << record.index)
}

/// An end of all windows in 64 bits, where it may be past 2^64.
#[test]
fn an_end_that_overflows() {
    let ends: [fn(&Groups, u64) -> bool; 9] = [
        |record, address| address < record.base.wrapping_add(span(record)),
        |record, address| address < record.base.saturating_add(span(record)),
        |record, address| address < record.base.saturating_add(at_most(record)),
        |record, address| address - record.base < span(record),
        |record, address| address - record.base < at_most(record),
        |record, address| address - record.base <= span(record).wrapping_sub(1),
        |record, address| address <= record.base.wrapping_add(span(record)).wrapping_sub(1),
        |record, address| address <= record.base.wrapping_add(at_most(record)).wrapping_sub(1),
        |record, address| record.base.checked_add(span(record)).is_some_and(|end| address < end),
    ];
    for is_before in ends {
        expect_judge_caught(or_else(move |call, judged| {
            (judged.number == 0).then(|| told(call, before_an_end(call, is_before)))
        }));
    }
}

/// Windows that go past 2^64 are taken for none.
#[test]
fn windows_past_2_to_the_64_not_taken() {
    expect_group_caught(|call| {
        let record = call.entered();
        let group = group(record, call.address)?;
        let last = ((group + 1) << (record.index - 1)).checked_mul(2)?.checked_sub(1)?;
        record.base.checked_add(last).map(|_| group)
    });
    expect_group_caught(|call| {
        let record = call.entered();
        let span = (u128::from(record.num_group) + 1) << record.index;
        let fits = u128::from(record.base) + span <= 1 << 64;
        group(record, call.address).filter(|_| fits)
    });
}

#[test]
fn another_width_of_the_windows() {
    let indexes: [fn(u64) -> u64; 8] = [
        |index| index + 1,
        |index| index - 1,
        |_| 12,
        |index| index % 32,
        |index| index.min(31),
        |index| index.min(62),
        |index| index - 12,
        |index| index.max(13),
    ];
    for other in indexes {
        expect_judge_caught(or_else(move |call, judged| {
            let found = |record: &Groups, address: u64| {
                let number = u128::from(address - record.base) >> other(record.index);
                u64::try_from(number).unwrap_or(u64::MAX)
            };
            (judged.number == 0).then(|| told(call, numbered(call, found)))
        }));
    }
}

/// As a number of addresses, and not as a power of two.
#[test]
fn the_index_taken_for_the_width() {
    expect_group_caught(|call| numbered(call, |record, address| (address - record.base) / record.index));
    expect_group_caught(|call| numbered(call, |record, address| (address - record.base) / (record.index * 4096)));
}

/// Bits of the address are taken in place of a distance from the base.
#[test]
fn the_group_taken_from_the_address_alone() {
    expect_group_caught(|call| {
        numbered(call, |record, address| {
            (address >> record.index) - (record.base >> record.index)
        })
    });
    expect_group_caught(|call| numbered(call, |record, address| address >> record.index & 63));
    expect_group_caught(|call| numbered(call, |record, address| (address ^ record.base) >> record.index));
}

#[test]
fn a_distance_in_floating_point() {
    expect_group_caught(|call| {
        numbered(call, |record, address| {
            ((address as f64 - record.base as f64) / 2_f64.powi(record.index as i32)) as u64
        })
    });
    expect_group_caught(|call| {
        numbered(call, |record, address| {
            (((address - record.base) as f32) / 2_f32.powi(record.index as i32)) as u64
        })
    });
}
