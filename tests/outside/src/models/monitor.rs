//! Requests T-05 and T-09: a stream that is checked in bursts, by what its record says.

use super::fifo::NOTHING;
use crate::answers::{Monitor, Payload, BROKEN, CLEAN, SEQ};

/// What a record says.
#[derive(Clone, Copy)]
struct Watch {
    seq: bool,
    cycles: u32,
    handshakes: u32,
    clears: u32,
    found: Found,
}

#[derive(Clone, Copy)]
enum Found {
    /// No breach: what stalled in the last cycle, and the counter that is due.
    Clean(Option<Payload>, Option<u16>),
    /// A rule, and the cycle that broke it.
    Broken(u8, u32),
}

impl Watch {
    /// What a record says, unless no bursts could have left it: it is kept in another form, or no trace leads to it.
    fn of(record: &Monitor) -> Option<Self> {
        let found = match record.verdict {
            CLEAN => Found::Clean(
                record.stalled.then_some(record.payload),
                record.counted.then_some(record.due as u16),
            ),
            BROKEN => Found::Broken(record.rule, record.cycle),
            _ => return None,
        };
        let watch = Watch {
            seq: record.seq,
            cycles: record.cycles,
            handshakes: record.handshakes,
            clears: record.clears,
            found,
        };
        (watch.kept() == *record && watch.possible()).then_some(watch)
    }

    /// The record as it is kept: zeros where there is nothing to say.
    fn kept(&self) -> Monitor {
        let mut record = Monitor {
            cycles: self.cycles,
            handshakes: self.handshakes,
            clears: self.clears,
            ..fresh(self.seq)
        };
        match self.found {
            Found::Clean(waiting, due) => {
                record.stalled = waiting.is_some();
                record.payload = waiting.unwrap_or(NOTHING);
                record.counted = due.is_some();
                record.due = due.map_or(0, u32::from);
            }
            Found::Broken(rule, cycle) => {
                record.verdict = BROKEN;
                record.rule = rule;
                record.cycle = cycle;
            }
        }
        record
    }

    /// How many of so many cycles were neither handshakes nor clear, unless the two are more.
    fn others(&self, cycles: u32) -> Option<u32> {
        cycles
            .checked_sub(self.handshakes)?
            .checked_sub(self.clears)
    }

    /// Whether its cycles have room for the handshakes and the clears, and for what else must have been seen.
    fn possible(&self) -> bool {
        match self.found {
            Found::Clean(waiting, due) => {
                let others = self.others(self.cycles);
                others.is_some_and(|cycles| cycles > 0 || waiting.is_none())
                    && waiting.is_none_or(|payload| payload.strb < 16)
                    && due.is_none_or(|_| self.seq && self.handshakes > 0)
            }
            Found::Broken(rule, cycle) => {
                let others = self.others(cycle);
                let enough = match rule {
                    // The cycle before the broken one stalled.
                    4 | 2 => others.is_some_and(|cycles| cycles > 0),
                    // A counter was carried before.
                    SEQ => self.seq && self.handshakes > 0 && others.is_some(),
                    _ => false,
                };
                enough && cycle < self.cycles
            }
        }
    }

    fn cycle(&mut self, control: u8, data: u32) {
        match self.found {
            Found::Clean(..) if control & 4 != 0 => {
                self.clears += 1;
                self.found = Found::Clean(None, None);
            }
            Found::Clean(waiting, due) => {
                let (valid, ready) = (control & 1 != 0, control & 2 != 0);
                let shown = Payload {
                    data,
                    strb: control >> 4,
                };
                let carries = self.seq && valid && ready && shown.strb & 3 == 3;
                let counter = carries.then_some(data as u16);
                let breach = match (waiting, due, counter) {
                    (Some(_), _, _) if !valid => Some(4),
                    (Some(held), _, _) if held != shown => Some(2),
                    (_, Some(due), Some(counter)) if counter != due => Some(SEQ),
                    _ => None,
                };
                self.found = match breach {
                    Some(rule) => Found::Broken(rule, self.cycles),
                    None => {
                        self.handshakes += u32::from(valid && ready);
                        let next = counter.map(|counter| counter.wrapping_add(1));
                        Found::Clean((valid && !ready).then_some(shown), next.or(due))
                    }
                };
            }
            Found::Broken(..) => {}
        }
        self.cycles += 1;
    }
}

pub fn fresh(seq: bool) -> Monitor {
    Monitor {
        seq,
        cycles: 0,
        verdict: CLEAN,
        rule: 0,
        cycle: 0,
        handshakes: 0,
        clears: 0,
        stalled: false,
        payload: NOTHING,
        counted: false,
        due: 0,
    }
}

/// Whether some bursts could have left the record.
pub fn legal(record: &Monitor) -> bool {
    Watch::of(record).is_some()
}

/// A burst fed to a record of any form: the refusal's number. One that is refused leaves the record as it is.
pub fn feed(record: &mut Monitor, control: &[u8], data: &[u32]) -> u8 {
    if control.len() != data.len() {
        return 1;
    }
    if control.len() > (u32::MAX - record.cycles) as usize {
        return 3;
    }
    let Some(mut watch) = Watch::of(record) else {
        return 6;
    };
    if control.iter().any(|c| c & 8 != 0) {
        return 2;
    }
    for (&c, &d) in control.iter().zip(data) {
        watch.cycle(c, d);
    }
    *record = watch.kept();
    0
}
