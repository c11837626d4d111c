//! "The stage and the line", with requests T-08, T-09 and T-12: a line of stages, by its value.

use super::fifo::{legal_place, refused, Shown, Stage, NOTHING};
use super::MAX_CYCLES;
use crate::answers::{Chain, DeliveryTime, Payload, Place};

/// A line's value: its stages, the mouth's first.
#[derive(Clone, PartialEq, Eq, Hash, Debug)]
pub struct Line(pub Vec<Stage>);

impl Line {
    pub fn empty(places: &[Place]) -> Self {
        Line(places.iter().map(|&place| Stage::empty(place)).collect())
    }

    /// The value of a line as it is kept, unless its form is broken. Stages past its count are not looked at.
    pub fn of(chain: &Chain) -> Option<Self> {
        if !(1..=16).contains(&chain.count) {
            return None;
        }
        let stages: Option<Vec<Stage>> = chain.fifos[..chain.count].iter().map(Stage::of).collect();
        stages.map(Line)
    }

    /// The payloads held in all stages, nearest the outlet first.
    pub fn held(&self) -> Vec<Payload> {
        let stages = self.0.iter().rev();
        stages.flat_map(|stage| stage.held.clone()).collect()
    }

    fn clear(&mut self) {
        self.0.iter_mut().for_each(|stage| stage.held.clear());
    }

    /// One cycle with no clear. Every stage sees its neighbours as they are at the cycle's start.
    fn cycle(&mut self, offer: Option<Payload>, sink: bool) -> Shown {
        let stages = &mut self.0;
        let ready: Vec<bool> = stages.iter().map(Stage::ready).collect();
        let shown: Vec<Option<Payload>> = stages.iter().map(Stage::shown).collect();
        let last = stages.len() - 1;
        for (i, stage) in stages.iter_mut().enumerate() {
            let source = if i == 0 { offer } else { shown[i - 1] };
            stage.cycle(source, if i == last { sink } else { ready[i + 1] });
        }
        Shown {
            refusal: 0,
            ready: ready[0],
            valid: shown[last].is_some(),
            payload: shown[last].unwrap_or(NOTHING),
        }
    }
}

pub fn new_chain(places: &[Place]) -> (u8, Line) {
    let refusal = if !(1..=16).contains(&places.len()) {
        5
    } else if !places.iter().all(|&place| legal_place(place)) {
        4
    } else {
        return (0, Line::empty(places));
    };
    (refusal, Line::empty(&[Place::plain(2)]))
}

/// A step of a line of any form: what it shows and the value afterwards; none where it is refused.
pub fn step(
    line: Option<Line>,
    valid: bool,
    payload: Payload,
    sink: bool,
    clear: bool,
) -> (Shown, Option<Line>) {
    let Some(mut line) = line else {
        return (refused(6), None);
    };
    if payload.strb > 15 {
        return (refused(2), None);
    }
    if clear {
        line.clear();
        return (refused(0), Some(line));
    }
    let shown = line.cycle(valid.then_some(payload), sink);
    (shown, Some(line))
}

/// What a run is lent to read: the offer's trace, and the sink's ready for each cycle.
#[derive(Clone, PartialEq, Debug)]
pub struct Offered {
    pub control: Vec<u8>,
    pub data: Vec<u32>,
    pub sink: Vec<u8>,
}

/// A run of a line of any form: the refusal's number, and the value afterwards, none where it is refused.
pub fn run(
    line: Option<Line>,
    offered: &Offered,
    out_control: &mut [u8],
    out_data: &mut [u32],
) -> (u8, Option<Line>) {
    let Offered {
        control,
        data,
        sink,
    } = offered;
    let n = control.len();
    if data.len() != n || sink.len() != n {
        return (1, None);
    }
    if n > MAX_CYCLES {
        return (3, None);
    }
    let Some(mut line) = line else {
        return (6, None);
    };
    if control.iter().any(|c| c & 8 != 0) || sink.iter().any(|&s| s > 1) {
        return (2, None);
    }
    if out_control.len() < n || out_data.len() < n {
        return (7, None);
    }
    for c in 0..n {
        if control[c] & 4 != 0 {
            line.clear();
            out_control[c] = sink[c] << 1 | 4;
            out_data[c] = 0;
            continue;
        }
        let payload = Payload {
            data: data[c],
            strb: control[c] >> 4,
        };
        let offer = (control[c] & 1 != 0).then_some(payload);
        let shown = line.cycle(offer, sink[c] == 1);
        out_control[c] = shown.payload.strb << 4 | sink[c] << 1 | u8::from(shown.valid);
        out_data[c] = shown.payload.data;
    }
    (0, Some(line))
}

/// Whether the delivery time of payload i is refused.
pub fn time_refusal(line: &Option<Line>, i: usize) -> u8 {
    match line {
        None => 6,
        Some(line) if i >= line.held().len() => 8,
        Some(_) => 0,
    }
}

/// In which cycle payload i is delivered, 0 being the first, found by running the line with its sink ready and these
/// offers. What is delivered meanwhile is what was held, in order.
pub fn time_by_running(mut line: Line, i: usize, offer: impl Fn() -> Option<Payload>) -> usize {
    let held = line.held();
    let mut delivered = 0;
    for cycle in 0.. {
        let shown = line.cycle(offer(), true);
        if shown.valid {
            assert_eq!(shown.payload, held[delivered]);
            if delivered == i {
                return cycle;
            }
            delivered += 1;
        }
    }
    unreachable!()
}

/// The same by request T-12's formula: stages are numbered 1 to k from the mouth.
pub fn time_by_formula(line: &Line, i: usize) -> usize {
    let k = line.0.len();
    let stages = (1..=k).rev();
    let stage_of: Vec<usize> = stages
        .flat_map(|stage| vec![stage; line.0[stage - 1].held.len()])
        .collect();
    (0..=i).map(|j| k - stage_of[j] + i - j).max().unwrap()
}

/// The delivery time of payload i of a line of any form; no offers come.
pub fn delivery_time(line: Option<Line>, i: usize) -> DeliveryTime {
    let refusal = time_refusal(&line, i);
    let cycles = match line {
        Some(line) if refusal == 0 => time_by_running(line, i, || None),
        _ => 0,
    };
    DeliveryTime { refusal, cycles }
}
