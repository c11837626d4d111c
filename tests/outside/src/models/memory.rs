//! "Memory rules": the verdicts on HWPE-Mem and HWPE-MemDecoupled traces.

use super::{earliest, MAX_CYCLES};
use crate::answers::{MemAnswer, ALIGN, BROKEN, CLEAN, NONE};

/// A memory trace as it is lent.
#[derive(Clone, PartialEq, Debug)]
pub struct Trace {
    pub control: Vec<u8>,
    pub add: Vec<u32>,
    pub data: Vec<u32>,
    pub r_data: Vec<u32>,
}

impl Trace {
    fn req(&self, c: usize) -> bool {
        self.control[c] & 1 != 0
    }

    fn handshake(&self, c: usize) -> bool {
        self.control[c] & 0b11 == 0b11
    }

    fn wen(&self, c: usize) -> bool {
        self.control[c] & 4 != 0
    }

    fn read_handshake(&self, c: usize) -> bool {
        self.handshake(c) && self.wen(c)
    }

    fn r_valid(&self, c: usize) -> bool {
        self.control[c] & 8 != 0
    }

    fn refusal(&self) -> Option<u8> {
        let n = self.control.len();
        if [self.add.len(), self.data.len(), self.r_data.len()] != [n; 3] {
            return Some(1);
        }
        (n > MAX_CYCLES).then_some(3)
    }

    /// The verdict by a rule that is broken first in the given cycle, if in any, and rule align after it.
    fn judged(&self, rule: u8, broken: Option<usize>) -> MemAnswer {
        let n = self.control.len();
        let align = (0..n).find(|&c| self.req(c) && self.add[c] % 4 != 0);
        let breach = earliest(&[(rule, broken), (ALIGN, align)]);
        let (verdict, rule, cycle) = breach.map_or((CLEAN, 0, 0), |(r, c)| (BROKEN, r, c));
        let counted = breach.map_or(n, |(_, c)| c);
        MemAnswer {
            refusal: 0,
            verdict,
            rule,
            cycle: cycle as u32,
            handshakes: (0..counted).filter(|&c| self.handshake(c)).count() as u32,
            open: false,
        }
    }
}

fn refused(number: u8) -> MemAnswer {
    MemAnswer {
        refusal: number,
        verdict: NONE,
        rule: 0,
        cycle: 0,
        handshakes: 0,
        open: false,
    }
}

pub fn check_mem(trace: &Trace) -> MemAnswer {
    if let Some(number) = trace.refusal() {
        return refused(number);
    }
    let n = trace.control.len();
    let rule_2 = (1..n).find(|&c| trace.read_handshake(c - 1) && !trace.r_valid(c));
    let mut answer = trace.judged(2, rule_2);
    answer.open = answer.verdict == CLEAN && n > 0 && trace.read_handshake(n - 1);
    answer
}

pub fn check_mem_decoupled(trace: &Trace) -> MemAnswer {
    if let Some(number) = trace.refusal() {
        return refused(number);
    }
    let n = trace.control.len();
    let rule_4 = (0..n).find(|&c| trace.handshake(c)).and_then(|first| {
        (first..n).find(|&c| trace.handshake(c) && trace.wen(c) != trace.wen(first))
    });
    trace.judged(4, rule_4)
}
