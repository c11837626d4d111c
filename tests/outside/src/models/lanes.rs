//! Request T-01: merge and split, the wide payload as one number of 32 bits for each lane, lane 0 lowest.

use super::fifo::NOTHING;
use crate::answers::{Merged, Offer, Payload, Split, Wide, MAX_LANES};

pub const NO_OFFER: Offer = Offer {
    valid: false,
    payload: NOTHING,
};

pub const NOTHING_WIDE: Wide = Wide {
    data: [0; MAX_LANES],
    strb: 0,
};

pub fn legal_lanes(lanes: u8) -> bool {
    matches!(lanes, 2 | 4)
}

/// The number's 32-bit words from the lowest up.
fn words(mut number: u128) -> [u32; MAX_LANES] {
    std::array::from_fn(|_| {
        let word = number as u32;
        number >>= 32;
        word
    })
}

/// The lanes' payloads as one; the last lane is laid down first, and each before it pushes the others up.
pub fn together(payloads: &[Payload]) -> Wide {
    let (mut number, mut strb) = (0u128, 0u16);
    for payload in payloads.iter().rev() {
        number = number << 32 | u128::from(payload.data);
        strb = strb << 4 | u16::from(payload.strb);
    }
    Wide {
        data: words(number),
        strb,
    }
}

/// Lane `i` of a wide payload.
pub fn lane(wide: Wide, i: usize) -> Payload {
    Payload {
        data: wide.data[i],
        strb: (wide.strb >> (4 * i) & 15) as u8,
    }
}

fn merge_refused(refusal: u8) -> Merged {
    Merged {
        refusal,
        valid: false,
        wide: NOTHING_WIDE,
        readies: [false; MAX_LANES],
    }
}

pub fn merge(lanes: u8, inputs: [Offer; MAX_LANES], ready: bool) -> Merged {
    if !legal_lanes(lanes) {
        return merge_refused(5);
    }
    let read = &inputs[..lanes as usize];
    if read.iter().any(|input| input.payload.strb > 15) {
        return merge_refused(2);
    }
    if !read.iter().all(|input| input.valid) {
        return merge_refused(0);
    }
    let payloads: Vec<Payload> = read.iter().map(|input| input.payload).collect();
    Merged {
        refusal: 0,
        valid: true,
        wide: together(&payloads),
        readies: std::array::from_fn(|i| ready && i < read.len()),
    }
}

fn split_refused(refusal: u8) -> Split {
    Split {
        refusal,
        ready: false,
        branches: [NO_OFFER; MAX_LANES],
    }
}

pub fn split(lanes: u8, valid: bool, wide: Wide, readies: [bool; MAX_LANES]) -> Split {
    if !legal_lanes(lanes) {
        return split_refused(5);
    }
    let read = lanes as usize;
    if (read..MAX_LANES).any(|i| lane(wide, i).strb > 0) {
        return split_refused(2);
    }
    let ready = readies[..read].iter().all(|&ready| ready);
    let mut split = split_refused(0);
    split.ready = ready;
    if valid && ready {
        for (i, branch) in split.branches[..read].iter_mut().enumerate() {
            *branch = Offer {
                valid,
                payload: lane(wide, i),
            };
        }
    }
    split
}
