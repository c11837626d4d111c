//! Request T-14: the address of an iteration, by stepping there, and the iterations whose address another generator also yields,
//! by a set of addresses.

use super::addressgen::{bad_mask, iterate, overwrites_itself, START};
use super::applying;
use crate::answers::{AddressAt, Filled, Settings};
use std::collections::HashSet;

/// How many iterations each of two generators may have.
pub const MAX_ITERATIONS: u32 = 4_096;

/// The iterations below this number are stepped to. The others are too many.
pub const STEPPED: u32 = 70_000;

/// The refusals of an overlap in the order in which they are tried, each with its name.
pub const OVERLAP_REFUSALS: [(u8, &str); 6] = [
    (3, "3"),
    (10, "10 of the first"),
    (11, "11 of the first"),
    (10, "10 of the second"),
    (11, "11 of the second"),
    (7, "7"),
];

/// The addresses of all iterations, by making them.
pub fn addresses(s: &Settings) -> impl Iterator<Item = u32> + '_ {
    let mut state = START;
    (0..s.total).map(move |_| iterate(s, &mut state))
}

/// The address of iteration i before it is cut to 32 bits: whole planes on from the base, then whole lines, then words.
pub fn uncut(s: &Settings, i: u32) -> u128 {
    let [line, lines] = [s.d0, s.d1].map(u128::from);
    let (mut address, mut left) = (u128::from(s.base), u128::from(i));
    if s.mask == 3 {
        address += left / (line * lines) * u128::from(s.s2);
        left %= line * lines;
    }
    if s.mask & 1 != 0 {
        address += left / line * u128::from(s.s1);
        left %= line;
    }
    address + left * u128::from(s.s0)
}

/// The refusals whose ground applies to iteration i, in the order in which they are tried.
pub fn grounds_at(s: &Settings, i: u32) -> Vec<u8> {
    applying(&[
        (10, bad_mask(s)),
        (11, overwrites_itself(s)),
        (8, i >= s.total),
    ])
}

pub fn address_at(s: &Settings, i: u32) -> AddressAt {
    let refusal = grounds_at(s, i).first().copied().unwrap_or(0);
    let address = match refusal {
        0 if i < STEPPED => addresses(s).nth(i as usize).unwrap(),
        0 => uncut(s, i) as u32,
        _ => 0,
    };
    AddressAt { refusal, address }
}

/// The refusals whose ground applies to two settings and a room, in the order in which they are tried.
pub fn overlap_grounds(
    first: &Settings,
    second: &Settings,
    room: usize,
) -> Vec<(u8, &'static str)> {
    let applies = [
        first.total.max(second.total) > MAX_ITERATIONS,
        bad_mask(first),
        overwrites_itself(first),
        bad_mask(second),
        overwrites_itself(second),
        room < first.total as usize,
    ];
    let table: Vec<_> = OVERLAP_REFUSALS.into_iter().zip(applies).collect();
    applying(&table)
}

pub fn overlap(first: &Settings, second: &Settings, out: &mut [u32]) -> Filled {
    let grounds = overlap_grounds(first, second, out.len());
    if let Some(&(refusal, _)) = grounds.first() {
        return Filled { refusal, count: 0 };
    }
    let yielded: HashSet<u32> = addresses(second).collect();
    let mut filled = Filled {
        refusal: 0,
        count: 0,
    };
    for (i, address) in (0..).zip(addresses(first)) {
        if yielded.contains(&address) {
            out[filled.count] = i;
            filled.count += 1;
        }
    }
    filled
}
