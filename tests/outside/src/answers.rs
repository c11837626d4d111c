//! What the calls take and answer, as they pass through C, in the numbers of document 01.

/// Verdicts by number: none where the trace is refused.
pub const NONE: u8 = 0;
pub const CLEAN: u8 = 1;
pub const BROKEN: u8 = 2;

/// The two rules that have a name and no number.
pub const SEQ: u8 = 100;
pub const ALIGN: u8 = 101;

pub const MAX_DEPTH: usize = 64;
pub const MAX_FIFOS: usize = 16;
pub const MAX_LANES: usize = 4;

/// The verdict on a stream's trace; rule and cycle are 0 unless it is broken. Handshakes and clear cycles are those before the
/// broken one, or all.
#[repr(C)]
#[derive(Clone, Copy, PartialEq, Eq, Debug)]
pub struct StreamAnswer {
    pub refusal: u8,
    pub verdict: u8,
    pub rule: u8,
    pub cycle: u32,
    pub handshakes: u32,
    pub clears: u32,
}

/// The verdict on a memory trace, and whether a read is open at its end.
#[repr(C)]
#[derive(Clone, Copy, PartialEq, Eq, Debug)]
pub struct MemAnswer {
    pub refusal: u8,
    pub verdict: u8,
    pub rule: u8,
    pub cycle: u32,
    pub handshakes: u32,
    pub open: bool,
}

#[repr(C)]
#[derive(Clone, Copy, PartialEq, Eq, Hash, Debug)]
pub struct Payload {
    pub data: u32,
    pub strb: u8,
}

/// The record of a stream that is checked in bursts: whether seq is on, the cycles seen, the verdict with its rule and cycle, the
/// handshakes and the clear cycles, and what the next cycle is judged by: what stalled in the last one, and the counter that is
/// due.
#[repr(C)]
#[derive(Clone, Copy, PartialEq, Eq, Hash, Debug)]
pub struct Monitor {
    pub seq: bool,
    pub cycles: u32,
    pub verdict: u8,
    pub rule: u8,
    pub cycle: u32,
    pub handshakes: u32,
    pub clears: u32,
    pub stalled: bool,
    pub payload: Payload,
    pub counted: bool,
    pub due: u32,
}

/// A place in a chain: the depth of the FIFO there, and whether it is early-stall or plain.
#[repr(C)]
#[derive(Clone, Copy, PartialEq, Eq, Hash, Debug)]
pub struct Place {
    pub depth: usize,
    pub early_stall: bool,
}

impl Place {
    pub const fn plain(depth: usize) -> Self {
        Place {
            depth,
            early_stall: false,
        }
    }

    pub const fn early_stall(depth: usize) -> Self {
        Place {
            depth,
            early_stall: true,
        }
    }
}

/// A FIFO as it is kept: `count` payloads in the slots from `oldest` on, around the end at its place's depth.
#[repr(C)]
#[derive(Clone, Copy, PartialEq, Eq, Debug)]
pub struct Fifo {
    pub place: Place,
    pub count: usize,
    pub oldest: usize,
    pub slots: [Payload; MAX_DEPTH],
}

/// A chain as it is kept: the first `count` of its FIFOs, the mouth's first.
#[repr(C)]
#[derive(Clone, Copy, PartialEq, Eq, Debug)]
pub struct Chain {
    pub count: usize,
    pub fifos: [Fifo; MAX_FIFOS],
}

/// A new FIFO or chain, with the refusal's number, 0 where there is none.
#[repr(C)]
#[derive(Clone, Copy, Debug)]
pub struct New<Kept> {
    pub refusal: u8,
    pub kept: Kept,
}

/// What a step of a FIFO or a chain shows, and what it hands back.
#[repr(C)]
#[derive(Clone, Copy, Debug)]
pub struct Stepped<Kept> {
    pub refusal: u8,
    pub ready: bool,
    pub valid: bool,
    pub payload: Payload,
    pub next: Kept,
}

/// How a run of a chain ended, and what it hands back.
#[repr(C)]
#[derive(Clone, Copy, Debug)]
pub struct ChainRun {
    pub refusal: u8,
    pub next: Chain,
}

/// After how many cycles a payload is delivered.
#[repr(C)]
#[derive(Clone, Copy, PartialEq, Eq, Debug)]
pub struct DeliveryTime {
    pub refusal: u8,
    pub cycles: usize,
}

/// What a stream's source offers in one cycle.
#[repr(C)]
#[derive(Clone, Copy, PartialEq, Eq, Debug)]
pub struct Offer {
    pub valid: bool,
    pub payload: Payload,
}

/// What a wide stream carries in one cycle: a word for each lane, lane 0 first, and four strobe bits for each.
#[repr(C)]
#[derive(Clone, Copy, PartialEq, Eq, Debug)]
pub struct Wide {
    pub data: [u32; MAX_LANES],
    pub strb: u16,
}

/// One of each lane, as a struct: C passes no array by value.
#[repr(C)]
#[derive(Clone, Copy)]
pub struct Each<T>(pub [T; MAX_LANES]);

/// What a merge shows its output, and the ready that it gives each input.
#[repr(C)]
#[derive(Clone, Copy, PartialEq, Eq, Debug)]
pub struct Merged {
    pub refusal: u8,
    pub valid: bool,
    pub wide: Wide,
    pub readies: [bool; MAX_LANES],
}

/// The ready that a split gives its source, and what it offers each branch.
#[repr(C)]
#[derive(Clone, Copy, PartialEq, Eq, Debug)]
pub struct Split {
    pub refusal: u8,
    pub ready: bool,
    pub branches: [Offer; MAX_LANES],
}

/// The address generator's settings.
#[repr(C)]
#[derive(Clone, Copy, PartialEq, Eq, Debug)]
pub struct Settings {
    pub base: u32,
    pub d0: u32,
    pub d1: u32,
    pub total: u32,
    pub s0: u32,
    pub s1: u32,
    pub s2: u32,
    pub mask: u8,
    pub store: bool,
}

/// The address generator's state.
#[repr(C)]
#[derive(Clone, Copy, PartialEq, Eq, Debug)]
pub struct State {
    pub a0: u32,
    pub a1: u32,
    pub a2: u32,
    pub c0: u32,
    pub c1: u32,
    pub ov: u32,
}

#[repr(C)]
#[derive(Clone, Copy, PartialEq, Eq, Debug)]
pub struct AddressRun {
    pub refusal: u8,
    pub count: usize,
    pub state: State,
    pub done: bool,
}

/// The address of an iteration.
#[repr(C)]
#[derive(Clone, Copy, PartialEq, Eq, Debug)]
pub struct AddressAt {
    pub refusal: u8,
    pub address: u32,
}

/// How a call that fills a buffer from its start ended, and how many entries it wrote.
#[repr(C)]
#[derive(Clone, Copy, PartialEq, Eq, Debug)]
pub struct Filled {
    pub refusal: u8,
    pub count: usize,
}

/// The fields of a stream's control byte.
#[repr(C)]
#[derive(Clone, Copy, PartialEq, Debug)]
pub struct StreamFields {
    pub valid: bool,
    pub ready: bool,
    pub clear: bool,
    pub reserved: bool,
    pub strb: u8,
}

/// The fields of a memory trace's control byte that are judged.
#[repr(C)]
#[derive(Clone, Copy, PartialEq, Debug)]
pub struct MemFields {
    pub req: bool,
    pub gnt: bool,
    pub wen: bool,
    pub r_valid: bool,
}
