//! "Address generator": a run for up to so many addresses.

use super::applying;
use crate::answers::{AddressRun, Settings, State};

/// The state before the first iteration.
pub const START: State = State {
    a0: 0,
    a1: 0,
    a2: 0,
    c0: 1,
    c1: 1,
    ov: 0,
};

#[inline]
pub fn bad_mask(s: &Settings) -> bool {
    let bit0 = s.mask & 1 != 0;
    let bit1 = s.mask & 2 != 0;
    s.mask > 3 || (bit0 && s.d0 == 0) || (bit0 && bit1 && s.d1 == 0)
}

/// A store in which a dimension that advances has stride 0.
#[inline]
pub fn overwrites_itself(s: &Settings) -> bool {
    let bit0 = s.mask & 1 != 0;
    let bit1 = s.mask & 2 != 0;
    let first = s.total > 1 && (!bit0 || s.d0 > 1);
    let second = bit0 && s.total > s.d0 && !(bit1 && s.d1 == 1);
    let third = bit0 && bit1 && u64::from(s.total) > u64::from(s.d0) * u64::from(s.d1);
    s.store && (s.s0 == 0 && first || s.s1 == 0 && second || s.s2 == 0 && third)
}

/// The refusals whose ground applies, in the order in which they are tried.
pub fn grounds(s: &Settings, t: &State, n: usize, room: usize) -> Vec<u8> {
    applying(&[
        (10, bad_mask(s)),
        (11, overwrites_itself(s)),
        (6, t.ov > s.total),
        (7, room < n),
    ])
}

/// One iteration: the address that it yields, and the state after it.
#[inline]
pub fn iterate(s: &Settings, t: &mut State) -> u32 {
    let bit0 = s.mask & 1 != 0;
    let bit1 = s.mask & 2 != 0;
    let mut address = s.base.wrapping_add(t.a0);
    if bit0 {
        address = address.wrapping_add(t.a1);
    }
    if bit0 && bit1 {
        address = address.wrapping_add(t.a2);
    }
    if t.c0 < s.d0 || !bit0 {
        t.a0 = t.a0.wrapping_add(s.s0);
        t.c0 = t.c0.wrapping_add(1);
    } else if t.c1 < s.d1 || !bit1 {
        t.a0 = 0;
        t.a1 = t.a1.wrapping_add(s.s1);
        t.c0 = 1;
        t.c1 = t.c1.wrapping_add(1);
    } else {
        t.a0 = 0;
        t.a1 = 0;
        t.a2 = t.a2.wrapping_add(s.s2);
        t.c0 = 1;
        t.c1 = 1;
    }
    t.ov += 1;
    address
}

pub fn run(settings: &Settings, state: &State, n: usize, out: &mut [u32]) -> AddressRun {
    let grounds = grounds(settings, state, n, out.len());
    let mut answer = AddressRun {
        refusal: grounds.first().copied().unwrap_or(0),
        count: 0,
        state: *state,
        done: false,
    };
    if answer.refusal == 0 {
        while answer.count < n && answer.state.ov < settings.total {
            out[answer.count] = iterate(settings, &mut answer.state);
            answer.count += 1;
        }
        answer.done = answer.state.ov == settings.total;
    }
    answer
}
