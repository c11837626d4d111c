//! "The stage and the line", with request T-08: one stage, by its value.

use crate::answers::{Fifo, Payload, Place};

/// What is shown when valid is 0.
pub const NOTHING: Payload = Payload { data: 0, strb: 0 };

/// A stage's value: its place, and what it holds, the oldest first.
#[derive(Clone, PartialEq, Eq, Hash, Debug)]
pub struct Stage {
    pub place: Place,
    pub held: Vec<Payload>,
}

/// What a call shows.
#[derive(Clone, Copy, PartialEq, Debug)]
pub struct Shown {
    pub refusal: u8,
    pub ready: bool,
    pub valid: bool,
    pub payload: Payload,
}

/// What a refused call shows.
pub fn refused(number: u8) -> Shown {
    Shown {
        refusal: number,
        ready: false,
        valid: false,
        payload: NOTHING,
    }
}

/// The most that a stage holds at a place: its depth, or one less where it is early-stall.
pub fn capacity(place: Place) -> usize {
    if place.early_stall {
        place.depth - 1
    } else {
        place.depth
    }
}

pub fn legal_place(place: Place) -> bool {
    let least = if place.early_stall { 4 } else { 2 };
    place.depth % 2 == 0 && (least..=64).contains(&place.depth)
}

impl Stage {
    pub fn empty(place: Place) -> Self {
        Stage {
            place,
            held: Vec::new(),
        }
    }

    /// The value of a stage as it is kept, unless its form is broken.
    pub fn of(fifo: &Fifo) -> Option<Self> {
        let Fifo {
            place,
            count,
            oldest,
            slots,
        } = *fifo;
        let depth = place.depth;
        if !legal_place(place) || count > capacity(place) || oldest >= depth {
            return None;
        }
        let held: Vec<Payload> = (0..count).map(|i| slots[(oldest + i) % depth]).collect();
        let legal = held.iter().all(|p| p.strb <= 15);
        legal.then_some(Stage { place, held })
    }

    pub fn ready(&self) -> bool {
        self.held.len() < capacity(self.place)
    }

    pub fn shown(&self) -> Option<Payload> {
        self.held.first().copied()
    }

    /// One cycle with no clear: what leaves and what joins go by the list at its start.
    pub fn cycle(&mut self, offer: Option<Payload>, sink: bool) {
        let accepted = offer.filter(|_| self.ready());
        if sink && !self.held.is_empty() {
            self.held.remove(0);
        }
        self.held.extend(accepted);
    }
}

/// A cycle with no clear of a well-formed stage as it is kept: its slots are those that a remainder gives, and no payload that
/// stays is moved.
pub fn kept_after(fifo: &Fifo, offer: Option<Payload>, sink: bool) -> Fifo {
    let mut next = *fifo;
    let depth = fifo.place.depth;
    if sink && fifo.count > 0 {
        next.oldest = (fifo.oldest + 1) % depth;
        next.count -= 1;
    }
    if let Some(payload) = offer.filter(|_| fifo.count < capacity(fifo.place)) {
        next.slots[(next.oldest + next.count) % depth] = payload;
        next.count += 1;
    }
    next
}

pub fn new_fifo(place: Place) -> (u8, Stage) {
    if legal_place(place) {
        (0, Stage::empty(place))
    } else {
        (4, Stage::empty(Place::plain(2)))
    }
}

/// A step of a stage of any form: what it shows and the value afterwards; none where it is refused.
pub fn step(
    stage: Option<Stage>,
    valid: bool,
    payload: Payload,
    sink: bool,
    clear: bool,
) -> (Shown, Option<Stage>) {
    let Some(mut stage) = stage else {
        return (refused(6), None);
    };
    if payload.strb > 15 {
        return (refused(2), None);
    }
    if clear {
        return (refused(0), Some(Stage::empty(stage.place)));
    }
    let shown = Shown {
        refusal: 0,
        ready: stage.ready(),
        valid: stage.shown().is_some(),
        payload: stage.shown().unwrap_or(NOTHING),
    };
    stage.cycle(valid.then_some(payload), sink);
    (shown, Some(stage))
}
