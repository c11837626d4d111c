//! Random FIFOs, chains and records as they are kept: well-formed ones, with anything in what is unused, and damaged ones.

use crate::answers::{Chain, Fifo, Monitor, Payload, Place, MAX_DEPTH, MAX_FIFOS};
use crate::models::fifo::capacity;
use crate::models::monitor;
use crate::random::Random;

pub fn legal_payload(random: &Random) -> Payload {
    Payload {
        data: random.word(),
        strb: random.byte() % 16,
    }
}

/// A payload, once in a while with a strobe above 15.
pub fn payload(random: &Random) -> Payload {
    let mut payload = legal_payload(random);
    if random.once_in(40) {
        payload.strb = random.byte() | 16;
    }
    payload
}

/// A legal place of this kind, of a small depth, whose ring is soon full and gone around, one at an edge, or any.
fn legal_place_of(random: &Random, early_stall: bool) -> Place {
    let least = if early_stall { 4 } else { 2 };
    let depth = match random.below(4) {
        0 => random.pick(&[least, least + 2]),
        1 => random.pick(&[16, 18, MAX_DEPTH - 2, MAX_DEPTH]),
        2 => least + 2 * random.below(8),
        _ => least + 2 * random.below((MAX_DEPTH - least) / 2 + 1),
    };
    Place { depth, early_stall }
}

pub fn legal_place(random: &Random) -> Place {
    legal_place_of(random, random.coin())
}

/// Legal places of a chain: all of one kind, or mixed.
pub fn legal_places(random: &Random, count: usize) -> Vec<Place> {
    let one_kind = random.coin().then(|| random.coin());
    (0..count)
        .map(|_| legal_place_of(random, one_kind.unwrap_or_else(|| random.coin())))
        .collect()
}

/// A place of any form. Depth 2 is legal for a plain FIFO alone.
pub fn any_place(random: &Random) -> Place {
    let past = MAX_DEPTH + 1;
    let depth = match random.below(6) {
        0 => random.pick(&[0, 1, 3, 17, past - 2, past, past + 1]),
        1 => random.pick(&[256, 1 << 32, usize::MAX - 1, usize::MAX]),
        2 => random.below(past + 5),
        3 => 2,
        _ => return legal_place(random),
    };
    let early_stall = random.coin();
    Place { depth, early_stall }
}

/// A well-formed FIFO of this place. Unused slots hold anything.
fn well_fifo(random: &Random, place: Place) -> Fifo {
    let most = capacity(place);
    let count = random.pick(&[0, 1, most - 1, most, random.below(most + 1)]);
    filled_fifo(random, place, random.below(place.depth), count)
}

/// A FIFO of these numbers that holds legal payloads. Unused slots hold anything.
pub fn filled_fifo(random: &Random, place: Place, oldest: usize, count: usize) -> Fifo {
    let mut slots = [(); MAX_DEPTH].map(|()| Payload {
        data: random.word(),
        strb: random.byte(),
    });
    for i in 0..count {
        slots[(oldest + i) % place.depth] = legal_payload(random);
    }
    Fifo {
        place,
        count,
        oldest,
        slots,
    }
}

/// Breaks one field of a FIFO's form, its kind too, or a strobe in any slot, held or not. Or the FIFO is filled to its
/// depth, which is one too many where it is early-stall, or becomes an early-stall one of depth 2.
pub fn damage_fifo(random: &Random, fifo: &mut Fifo) {
    let (depth, past) = (fifo.place.depth, MAX_DEPTH + 1);
    match random.below(7) {
        0 => {
            let depths = [0, 1, depth - 1, depth + 1, 17, past, past + 1, usize::MAX];
            fifo.place.depth = random.pick(&depths);
        }
        1 => fifo.count = random.pick(&[depth + 1, past, usize::MAX, fifo.count]),
        2 => fifo.oldest = random.pick(&[depth, depth + 1, MAX_DEPTH, usize::MAX, depth - 1]),
        3 => fifo.place.early_stall = !fifo.place.early_stall,
        4 => *fifo = filled_fifo(random, fifo.place, fifo.oldest, depth),
        5 => {
            let (oldest, count) = (random.below(2), random.below(3));
            *fifo = filled_fifo(random, Place::early_stall(2), oldest, count);
        }
        _ => {
            let at = random.below(random.pick(&[depth, MAX_DEPTH]));
            fifo.slots[at].strb = random.pick(&[15, 16, 17, 255]);
        }
    }
}

pub fn any_fifo(random: &Random) -> Fifo {
    let mut fifo = well_fifo(random, legal_place(random));
    if random.once_in(4) {
        damage_fifo(random, &mut fifo);
    }
    fifo
}

/// Well-formed FIFOs, all of one kind or mixed.
fn well_fifos(random: &Random) -> [Fifo; MAX_FIFOS] {
    let places = legal_places(random, MAX_FIFOS);
    std::array::from_fn(|i| well_fifo(random, places[i]))
}

/// A well-formed chain. FIFOs past its count are of any form.
pub fn well_chain(random: &Random) -> Chain {
    let count = 1 + random.below(MAX_FIFOS);
    let mut fifos = well_fifos(random);
    for fifo in &mut fifos[count..] {
        damage_fifo(random, fifo);
    }
    Chain { count, fifos }
}

/// Breaks a chain's count, once in a while with every FIFO well-formed, or one of its FIFOs, used or not.
pub fn any_chain(random: &Random) -> Chain {
    let mut chain = well_chain(random);
    if random.once_in(4) {
        if random.once_in(4) {
            let past = MAX_FIFOS + 1;
            chain.count = random.pick(&[0, past, past + 1, usize::MAX, chain.count]);
            if random.coin() {
                chain.fifos = well_fifos(random);
            }
        } else {
            let at = random.below(MAX_FIFOS.min(chain.count + 1));
            chain.fifos[at] = well_fifo(random, legal_place(random));
            damage_fifo(random, &mut chain.fifos[at]);
        }
    }
    chain
}

/// A record at the start of a stream: fresh, or after so many idle cycles that it may see few more.
pub fn started_monitor(random: &Random) -> Monitor {
    let mut record = monitor::fresh(random.coin());
    if random.once_in(6) {
        record.cycles = u32::MAX - random.word() % 60;
    }
    record
}

/// Changes one field of a record, numbers mostly to where a test of its form begins.
pub fn damage_monitor(random: &Random, record: &mut Monitor) {
    let other = random.pick(&[0, record.handshakes, record.clears]);
    let about = random.pick(&[record.cycles, record.cycle, other, 0, 1]);
    let near = about.wrapping_sub(1).wrapping_add(random.word() % 3);
    let number = random.pick(&[near, near, near.wrapping_sub(other), random.word()]);
    match random.below(12) {
        0 => record.seq = !record.seq,
        1 => record.cycles = number,
        2 => record.verdict = random.pick(&[0, 1, 2, 3, random.byte()]),
        3 => record.rule = random.pick(&[0, 2, 3, 4, 100, 101, random.byte()]),
        4 => record.cycle = number,
        5 => record.handshakes = number,
        6 => record.clears = number,
        7 => record.stalled = !record.stalled,
        8 => record.payload.data = random.pick(&[0, 1, random.word()]),
        9 => record.payload.strb = random.pick(&[0, 1, 15, 16, random.byte()]),
        10 => record.counted = !record.counted,
        _ => record.due = random.pick(&[0, 1, 65_535, 65_536, random.word()]),
    }
}
