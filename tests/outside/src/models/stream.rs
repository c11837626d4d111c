//! "Stream rules", with requests T-04 and T-09: the verdict on a stream's trace.

use super::{earliest, MAX_CYCLES};
use crate::answers::{StreamAnswer, BROKEN, CLEAN, NONE, SEQ};

fn refused(number: u8) -> StreamAnswer {
    StreamAnswer {
        refusal: number,
        verdict: NONE,
        rule: 0,
        cycle: 0,
        handshakes: 0,
        clears: 0,
    }
}

/// What the rules read in a control byte.
#[derive(Clone, Copy)]
pub struct Reading {
    /// The trace is refused for it.
    pub reserved: fn(u8) -> bool,
    pub handshake: fn(u8) -> bool,
    /// A handshake that carries a counter: the strobes of bytes 0 and 1 are both 1.
    pub carrier: fn(u8) -> bool,
    /// The next cycle has to show the same.
    pub stall: fn(u8) -> bool,
    /// The cycle is held to what stalled before it.
    pub held: fn(u8) -> bool,
    /// Counters before and after the cycle are not compared.
    pub afresh: fn(u8) -> bool,
}

pub const RULES: Reading = Reading {
    reserved: |c| c & 8 != 0,
    handshake: |c| c & 7 == 3,
    carrier: |c| c & 0x37 == 0x33,
    stall: |c| c & 7 == 1,
    held: |c| c & 4 == 0,
    afresh: |c| c & 4 != 0,
};

pub fn check_stream(control: &[u8], data: &[u32], seq: bool) -> StreamAnswer {
    check_stream_by(&RULES, control, data, seq)
}

/// The same with another reading of control bytes.
pub fn check_stream_by(by: &Reading, control: &[u8], data: &[u32], seq: bool) -> StreamAnswer {
    let n = control.len();
    if n != data.len() {
        return refused(1);
    }
    if n > MAX_CYCLES {
        return refused(3);
    }
    if control.iter().any(|&c| (by.reserved)(c)) {
        return refused(2);
    }
    judged_by(by, control, data, seq)
}

/// The verdict on a legal trace of any length.
pub fn judged(control: &[u8], data: &[u32], seq: bool) -> StreamAnswer {
    judged_by(&RULES, control, data, seq)
}

fn judged_by(by: &Reading, control: &[u8], data: &[u32], seq: bool) -> StreamAnswer {
    let n = control.len();
    let valid = |c: usize| control[c] & 1 != 0;
    let payload = |c: usize| (control[c] >> 4, data[c]);
    let duty = |c: usize| (by.stall)(control[c - 1]) && (by.held)(control[c]);
    let carrier = |c: usize| (by.carrier)(control[c]);
    let counter = |c: usize| data[c] as u16;
    let mut carriers_and_clears: Vec<usize> = (0..n).collect();
    carriers_and_clears.retain(|&c| carrier(c) || (by.afresh)(control[c]));

    let rule_4 = (1..n).find(|&c| duty(c) && !valid(c));
    let rule_2 = (1..n).find(|&c| duty(c) && valid(c) && payload(c) != payload(c - 1));
    let rule_seq = carriers_and_clears
        .windows(2)
        .filter(|pair| carrier(pair[0]) && carrier(pair[1]))
        .find(|pair| counter(pair[1]) != counter(pair[0]).wrapping_add(1))
        .map(|pair| pair[1])
        .filter(|_| seq);
    let breach = earliest(&[(4, rule_4), (2, rule_2), (SEQ, rule_seq)]);
    let (verdict, rule, cycle) = breach.map_or((CLEAN, 0, 0), |(r, c)| (BROKEN, r, c));
    let before = &control[..breach.map_or(n, |(_, c)| c)];
    StreamAnswer {
        refusal: 0,
        verdict,
        rule,
        cycle: cycle as u32,
        handshakes: before.iter().filter(|&&c| (by.handshake)(c)).count() as u32,
        clears: before.iter().filter(|&&c| c & 4 != 0).count() as u32,
    }
}
