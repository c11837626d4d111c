//! Request T-01: merge and split against their models, the two wired to each other, and a branch that waits for valid.

use outside::answers::{Merged, Offer, Payload, Place, Split, Wide, CLEAN, MAX_LANES};
use outside::models::lanes::{lane, legal_lanes, NO_OFFER};
use outside::random::{agree_in_all, kinds_of, same, Random};
use outside::{linked, models};
use std::collections::BTreeSet;

/// What the merges should reach.
const MERGES: [&str; 24] = [
    "5",
    "5, an illegal strobe too",
    "2, 2 lanes",
    "2, 2 lanes, in the last lane",
    "2, 2 lanes, not valid",
    "2, 2 lanes, 16",
    "2, 4 lanes",
    "2, 4 lanes, in the last lane",
    "2, 4 lanes, not valid",
    "2, 4 lanes, 16",
    "0, 2 lanes",
    "0, 2 lanes, taken",
    "0, 2 lanes, not taken",
    "0, 2 lanes, one missing",
    "0, 2 lanes, none valid",
    "0, 2 lanes, no strobe",
    "0, 4 lanes",
    "0, 4 lanes, taken",
    "0, 4 lanes, not taken",
    "0, 4 lanes, one missing",
    "0, 4 lanes, none valid",
    "0, 4 lanes, no strobe",
    "0, 2 lanes, an illegal strobe past the lanes",
    "0, 2 lanes, not valid past the lanes",
];

/// What the splits should reach.
const SPLITS: [&str; 20] = [
    "5",
    "5, a strobe past too",
    "2, 2 lanes",
    "2, 2 lanes, not valid",
    "2, 2 lanes, the first past the lanes",
    "2, 2 lanes, the last",
    "0, 2 lanes",
    "0, 2 lanes, offered",
    "0, 2 lanes, not valid and ready",
    "0, 2 lanes, one not ready",
    "0, 2 lanes, none ready",
    "0, 2 lanes, the highest strobe",
    "0, 4 lanes",
    "0, 4 lanes, offered",
    "0, 4 lanes, not valid and ready",
    "0, 4 lanes, one not ready",
    "0, 4 lanes, none ready",
    "0, 4 lanes, the highest strobe",
    "0, 2 lanes, data past the lanes",
    "0, 2 lanes, not ready past the lanes",
];

/// Two and four lanes most often, and every other number.
fn lanes(random: &Random) -> u8 {
    random.pick(&[2, 2, 2, 2, 4, 4, 4, 4, 3, random.byte()])
}

fn strb(random: &Random) -> u8 {
    match random.below(12) {
        0 => random.pick(&[16, 17, 31, 128, 255, random.byte()]),
        1 => random.pick(&[0, 1, 8, 15]),
        _ => random.byte() % 16,
    }
}

fn payload(random: &Random) -> Payload {
    Payload {
        data: random.word(),
        strb: strb(random),
    }
}

fn offer(random: &Random) -> Offer {
    Offer {
        valid: !random.once_in(5),
        payload: payload(random),
    }
}

fn each<T>(make: impl Fn() -> T) -> [T; MAX_LANES] {
    std::array::from_fn(|_| make())
}

/// The kinds of an answer: its refusal, and, by the number of lanes, what stood out.
fn kinds(refusal: u8, lanes: u8, found: &[(&str, bool)]) -> BTreeSet<String> {
    let of = match legal_lanes(lanes) {
        true => format!("{refusal}, {lanes} lanes"),
        false => refusal.to_string(),
    };
    kinds_of(of, found)
}

pub fn compare_merge(
    random: &Random,
    call: impl Fn(u8, [Offer; MAX_LANES], bool) -> Merged,
) -> Result<BTreeSet<String>, String> {
    let (lanes, inputs, ready) = (lanes(random), each(|| offer(random)), random.coin());
    let input = (lanes, inputs, ready);
    let got = call(lanes, inputs, ready);
    let want = models::lanes::merge(lanes, inputs, ready);
    same("merge", &(got, input), &(want, input))?;
    let (read, past) = inputs.split_at(usize::from(lanes).min(MAX_LANES));
    let valids = read.iter().filter(|input| input.valid).count();
    let illegal = |inputs: &[Offer]| inputs.iter().any(|input| input.payload.strb > 15);
    Ok(match want.refusal {
        0 => kinds(
            0,
            lanes,
            &[
                ("taken", want.readies[0]),
                ("not taken", want.valid && !ready),
                ("one missing", valids + 1 == read.len()),
                ("none valid", valids == 0),
                ("no strobe", want.valid && want.wide.strb == 0),
                (
                    "an illegal strobe past the lanes",
                    want.valid && illegal(past),
                ),
                (
                    "not valid past the lanes",
                    want.valid && past.iter().any(|input| !input.valid),
                ),
            ],
        ),
        2 => kinds(
            2,
            lanes,
            &[
                ("in the last lane", illegal(&read[read.len() - 1..])),
                (
                    "not valid",
                    read.iter()
                        .all(|input| !(input.valid && input.payload.strb > 15)),
                ),
                ("16", read.iter().all(|input| input.payload.strb <= 16)),
            ],
        ),
        number => kinds(number, lanes, &[("an illegal strobe too", illegal(read))]),
    })
}

fn wide(random: &Random, lanes: u8) -> Wide {
    let strb = random.bits() as u16;
    Wide {
        data: each(|| random.word()),
        strb: match random.below(8) {
            0 => strb,
            1 => random.pick(&[0, 255, 256, 1 << 15, 0xffff]),
            _ if lanes == 2 => strb % 256,
            _ => strb,
        },
    }
}

pub fn compare_split(
    random: &Random,
    call: impl Fn(u8, bool, Wide, [bool; MAX_LANES]) -> Split,
) -> Result<BTreeSet<String>, String> {
    let lanes = lanes(random);
    let (valid, wide) = (!random.once_in(3), wide(random, lanes));
    let readies = each(|| !random.once_in(5));
    let input = (lanes, valid, wide, readies);
    let got = call(lanes, valid, wide, readies);
    let want = models::lanes::split(lanes, valid, wide, readies);
    same("split", &(got, input), &(want, input))?;
    let read = usize::from(lanes).min(MAX_LANES);
    let ready = readies[..read].iter().filter(|&&ready| ready).count();
    Ok(match want.refusal {
        0 => kinds(
            0,
            lanes,
            &[
                ("offered", want.branches[0].valid),
                ("not valid and ready", !valid && want.ready),
                ("one not ready", valid && ready + 1 == read),
                ("none ready", ready == 0),
                (
                    "the highest strobe",
                    want.ready && wide.strb >> (4 * read - 1) == 1,
                ),
                (
                    "data past the lanes",
                    want.branches[0].valid && wide.data[read..] != [0; MAX_LANES][read..],
                ),
                (
                    "not ready past the lanes",
                    want.ready && readies[read..].contains(&false),
                ),
            ],
        ),
        2 => kinds(
            2,
            lanes,
            &[
                ("not valid", !valid),
                ("the first past the lanes", wide.strb >> 8 == 1),
                ("the last", wide.strb == 1 << 15),
            ],
        ),
        number => kinds(number, lanes, &[("a strobe past too", wide.strb > 255)]),
    })
}

#[test]
fn merge() {
    agree_in_all(200_000, &MERGES, |random| {
        compare_merge(random, linked::merge)
    });
}

#[test]
fn split() {
    agree_in_all(200_000, &SPLITS, |random| {
        compare_split(random, linked::split)
    });
}

/// Every number of lanes, and of those every choice of valid inputs and ready branches.
#[test]
fn every_number_of_lanes() {
    let random = Random::new(0);
    for lanes in 0..=255 {
        for choice in 0..32 {
            let bits: [bool; MAX_LANES] = std::array::from_fn(|i| choice >> i & 1 == 1);
            let other = choice >= 16;
            let inputs = bits.map(|valid| Offer {
                valid,
                payload: Payload {
                    data: random.word(),
                    strb: random.byte() % 16,
                },
            });
            let merged = linked::merge(lanes, inputs, other);
            assert_eq!(merged, models::lanes::merge(lanes, inputs, other));
            let wide = Wide {
                data: each(|| random.word()),
                strb: u16::from(random.byte()),
            };
            let split = linked::split(lanes, other, wide, bits);
            assert_eq!(split, models::lanes::split(lanes, other, wide, bits));
            let refusal = if lanes == 2 || lanes == 4 { 0 } else { 5 };
            assert_eq!((merged.refusal, split.refusal), (refusal, refusal));
        }
    }
}

/// A source that offers until it is taken; one that breaks the rules withdraws or changes its offer now and then.
struct Source {
    offer: Offer,
    breaks: bool,
}

impl Source {
    fn next(&mut self, random: &Random, taken: bool) {
        if taken || !self.offer.valid || (self.breaks && random.once_in(6)) {
            self.offer.valid = !random.once_in(3);
            self.offer.payload = Payload {
                data: random.word(),
                strb: random.byte() % 16,
            };
        }
    }
}

/// A stream's recorded cycles: a control byte and a data word for each.
#[derive(Clone, Default)]
struct Trace(Vec<u8>, Vec<u32>);

impl Trace {
    fn push(&mut self, offer: Offer, ready: bool) {
        let Offer { valid, payload } = offer;
        let bits = u8::from(valid) | u8::from(ready) << 1;
        self.0.push(bits | payload.strb << 4);
        self.1.push(payload.data);
    }

    fn is_clean(&self) -> bool {
        linked::check_stream(&self.0, &self.1, false).verdict == CLEAN
    }

    /// The cycles with a handshake, and what is handed over in each.
    fn handed(&self) -> Vec<(usize, u8, u32)> {
        let cycles = self.0.iter().zip(&self.1).enumerate();
        let handed = cycles.filter(|(_, (&control, _))| control & 3 == 3);
        handed
            .map(|(c, (&control, &data))| (c, control >> 4, data))
            .collect()
    }
}

/// A merge and the split behind it over a trace: each branch is handed what its input hands over, in the same cycles; the checker
/// finds the output clean in every lane where it finds every input so, and every branch always.
#[test]
fn split_after_merge() {
    let kinds = [
        "clean",
        "every lane handed over",
        "broken in and out",
        "broken in",
    ];
    agree_in_all(4_000, &kinds, |random| {
        let lanes = random.pick(&[2, 4]);
        let breaks = random.coin();
        let mut sources: Vec<Source> = (0..lanes)
            .map(|_| Source {
                offer: NO_OFFER,
                breaks,
            })
            .collect();
        let mut inputs = vec![Trace::default(); lanes];
        let mut outputs = inputs.clone();
        let mut branches = inputs.clone();
        for _ in 0..random.below(40) {
            let mut offers = [NO_OFFER; MAX_LANES];
            for (offer, source) in offers.iter_mut().zip(&sources) {
                *offer = source.offer;
            }
            let readies = each(|| !random.once_in(4));
            // The split's ready does not depend on what its source shows, so that it can be asked for first.
            let ready =
                linked::split(lanes as u8, false, models::lanes::NOTHING_WIDE, readies).ready;
            let merged = linked::merge(lanes as u8, offers, ready);
            let split = linked::split(lanes as u8, merged.valid, merged.wide, readies);
            same("the wire", &split.ready, &ready)?;
            for i in 0..lanes {
                let output = Offer {
                    valid: merged.valid,
                    payload: lane(merged.wide, i),
                };
                inputs[i].push(offers[i], merged.readies[i]);
                outputs[i].push(output, ready);
                branches[i].push(split.branches[i], readies[i]);
                sources[i].next(random, merged.readies[i]);
            }
        }
        for (branch, input) in branches.iter().zip(&inputs) {
            same("what is handed over", &branch.handed(), &input.handed())?;
            same("a branch", &branch.is_clean(), &true)?;
        }
        let clean_in = inputs.iter().all(Trace::is_clean);
        let clean_out = outputs.iter().all(Trace::is_clean);
        let kind = match (clean_in, clean_out) {
            (true, true) if inputs.iter().all(|input| input.handed().len() > 1) => {
                "every lane handed over"
            }
            (true, true) => "clean",
            (true, false) => return Err("the inputs are clean and the output is not".to_string()),
            (false, false) => "broken in and out",
            (false, true) => "broken in",
        };
        Ok(BTreeSet::from([kind.to_string()]))
    });
}

/// Payloads 0 to 19 for each lane, to sinks of which the last raises ready only after a cycle in which it has seen valid: what each
/// is handed in 200 cycles, straight from the split or out of a FIFO behind the branch.
fn handed_to_waiting(lanes: usize, depth: Option<usize>) -> Vec<Vec<u32>> {
    let mut fifos = vec![linked::fifo_new(Place::plain(depth.unwrap_or(2))).kept; lanes];
    let mut handed = vec![Vec::new(); lanes];
    let mut sent = 0;
    let mut seen = false;
    for _ in 0..200 {
        let sinks: Vec<bool> = (0..lanes).map(|i| i + 1 < lanes || seen).collect();
        let mut readies = [false; MAX_LANES];
        for i in 0..lanes {
            // A FIFO's ready does not depend on what it is offered.
            readies[i] = match depth {
                Some(_) => {
                    linked::fifo_step(fifos[i], false, models::fifo::NOTHING, sinks[i], false).ready
                }
                None => sinks[i],
            };
        }
        let wide = Wide {
            data: std::array::from_fn(|i| 100 * i as u32 + sent),
            strb: 0,
        };
        let split = linked::split(lanes as u8, sent < 20, wide, readies);
        sent += u32::from(sent < 20 && split.ready);
        for i in 0..lanes {
            let mut shown = split.branches[i];
            if depth.is_some() {
                let step = linked::fifo_step(fifos[i], shown.valid, shown.payload, sinks[i], false);
                assert_eq!((step.refusal, step.ready), (0, readies[i]));
                fifos[i] = step.next;
                shown = Offer {
                    valid: step.valid,
                    payload: step.payload,
                };
            }
            if shown.valid && sinks[i] {
                handed[i].push(shown.payload.data);
            }
            if i + 1 == lanes {
                seen = shown.valid && !seen;
            }
        }
    }
    handed
}

/// Straight from the split nobody is ever handed anything; with a FIFO behind each branch everybody is handed everything, in order.
#[test]
fn a_branch_that_waits_for_valid() {
    for lanes in [2, 4] {
        assert_eq!(
            handed_to_waiting(lanes, None),
            vec![Vec::<u32>::new(); lanes]
        );
        for depth in [2, 4, 64] {
            let all: Vec<Vec<u32>> = (0..lanes as u32)
                .map(|i| (0..20).map(|n| 100 * i + n).collect())
                .collect();
            assert_eq!(handed_to_waiting(lanes, Some(depth)), all);
        }
    }
}
