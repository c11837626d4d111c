//! The comparisons can fail: each tells a call apart that is wrong in one thing.

use crate::{
    address_at, addressgen, bench_text, chain, delivery_time, fifo, lanes, memory, monitor, mux,
    realign, stream, strobes,
};
use outside::answers::{
    AddressAt, AddressRun, Chain, ChainRun, DeliveryTime, Fifo, Filled, Merged, Monitor, Offer,
    Payload, Place, Settings, Split, State, StreamAnswer, Wide, BROKEN, CLEAN, MAX_DEPTH,
    MAX_FIFOS, MAX_LANES,
};
use outside::models::address_at::{addresses, grounds_at, overlap_grounds, uncut, MAX_ITERATIONS};
use outside::models::addressgen::{bad_mask, overwrites_itself};
use outside::models::chain::{Line, Offered};
use outside::models::fifo::{legal_place, Stage, NOTHING};
use outside::models::realign::{sink_grounds, source_grounds, MAX_PACKETS};
use outside::models::stream::{check_stream_by, Reading, RULES};
use outside::models::strobes::plan;
use outside::random::{differ, Random};
use outside::{linked, models, states};
use std::collections::{BTreeMap, HashSet};

fn differs<T>(compare: impl Fn(&Random) -> Result<T, String>) {
    differ(2_000, compare);
}

fn clear(control: u8) -> bool {
    control & 4 != 0
}

fn clears(control: &[u8]) -> u32 {
    control.iter().filter(|&&c| clear(c)).count() as u32
}

#[test]
fn the_switch_exchanged() {
    differs(|random| {
        stream::compare(random, |control, data, seq| {
            linked::check_stream(control, data, !seq)
        })
    });
}

#[test]
fn other_handshakes_carry_a_counter() {
    let wrong: [fn(u8) -> bool; 5] = [
        |control| control & 7 == 3,
        |control| control & 0x17 == 0x13,
        |control| control & 0x27 == 0x23,
        |control| control & 7 == 3 && control & 0x30 != 0,
        |control| control & 0xf7 == 0xf3,
    ];
    for carrier in wrong {
        reading_differs(Reading { carrier, ..RULES });
    }
}

/// A checker that reads control bytes otherwise is told apart.
fn reading_differs(wrong: Reading) {
    differs(|random| {
        stream::compare(random, |control, data, seq| {
            check_stream_by(&wrong, control, data, seq)
        })
    });
}

#[test]
fn a_clear_counted_as_a_handshake() {
    let handshake = |control| control & 3 == 3;
    reading_differs(Reading { handshake, ..RULES });
}

#[test]
fn a_clear_that_lays_a_duty() {
    let stall = |control| control & 3 == 1;
    reading_differs(Reading { stall, ..RULES });
}

#[test]
fn a_clear_that_is_judged() {
    let held = |_| true;
    reading_differs(Reading { held, ..RULES });
    // By rule 4 alone, and by rule 2 alone.
    let held = |control| control & 5 != 5;
    reading_differs(Reading { held, ..RULES });
    let held = |control| control & 5 != 4;
    reading_differs(Reading { held, ..RULES });
}

#[test]
fn counters_compared_across_a_clear() {
    let afresh = |_| false;
    reading_differs(Reading { afresh, ..RULES });
}

#[test]
fn a_counter_seen_in_a_clear() {
    let carrier = |control| control & 0x33 == 0x33;
    reading_differs(Reading { carrier, ..RULES });
}

#[test]
fn other_bits_reserved() {
    let wrong: [fn(u8) -> bool; 4] = [
        |control| control & 12 != 0,
        |_| false,
        |control| control & 12 == 8,
        |control| control & 12 == 12,
    ];
    for reserved in wrong {
        reading_differs(Reading { reserved, ..RULES });
    }
}

#[test]
fn other_clears_counted() {
    let wrong: [fn(&[u8], &StreamAnswer) -> u32; 3] = [
        // Past the broken cycle too.
        |control, _| clears(control),
        |_, _| 0,
        // In a clean trace alone.
        |_, answer| {
            if answer.verdict == CLEAN {
                answer.clears
            } else {
                0
            }
        },
    ];
    for count in wrong {
        differs(|random| {
            stream::compare(random, |control, data, seq| {
                let mut answer = linked::check_stream(control, data, seq);
                if answer.refusal == 0 {
                    answer.clears = count(control, &answer);
                }
                answer
            })
        });
    }
}

#[test]
fn one_protocol_for_the_other() {
    differs(|random| {
        memory::compare(
            random,
            linked::check_mem_decoupled,
            models::memory::check_mem,
        )
    });
    differs(|random| {
        memory::compare(
            random,
            linked::check_mem,
            models::memory::check_mem_decoupled,
        )
    });
}

#[test]
fn a_step_that_does_not_clear() {
    differs(|random| {
        fifo::compare(random, |fifo, valid, payload, sink, _| {
            linked::fifo_step(fifo, valid, payload, sink, false)
        })
    });
    differs(|random| {
        let kept = states::well_chain(random);
        chain::compare_step(random, kept, |chain, valid, payload, sink, _| {
            linked::chain_step(chain, valid, payload, sink, false)
        })
    });
}

#[test]
fn held_payloads_shifted() {
    // The same value, kept with its oldest in slot 0.
    differs(|random| {
        fifo::compare_places(random, |fifo, valid, payload, sink, clear| {
            let mut stepped = linked::fifo_step(fifo, valid, payload, sink, clear);
            let next = &mut stepped.next;
            next.slots[..next.place.depth].rotate_left(next.oldest);
            next.oldest = 0;
            stepped
        })
    });
}

/// Moves a payload of the FIFO that is handed back, by the one that was given.
type Misplaced = fn(&Fifo, &mut Fifo);

/// A step and a run that misplace a payload in the FIFOs of these places are told apart.
fn misplaced_differs(places: fn(Place) -> bool, misplace: Misplaced) {
    let step = |fifo: Fifo, valid, payload, sink, clear| {
        let mut stepped = linked::fifo_step(fifo, valid, payload, sink, clear);
        if places(fifo.place) && stepped.refusal == 0 {
            misplace(&fifo, &mut stepped.next);
        }
        stepped
    };
    differs(|random| fifo::compare(random, step));
    differs(|random| fifo::compare_places(random, step));
    let misplace_all = |given: &Chain, next: &mut Chain| {
        for (fifo, given) in next.fifos.iter_mut().zip(&given.fifos) {
            if places(given.place) {
                misplace(given, fifo);
            }
        }
    };
    differs(|random| {
        let kept = states::well_chain(random);
        chain::compare_step(random, kept, |chain, valid, payload, sink, clear| {
            let mut stepped = linked::chain_step(chain, valid, payload, sink, clear);
            if stepped.refusal == 0 {
                misplace_all(&chain, &mut stepped.next);
            }
            stepped
        })
    });
    run_differs(|chain, offered, out_control, out_data| {
        let mut ran = linked::chain_run(chain, offered, out_control, out_data);
        if ran.refusal == 0 {
            misplace_all(&chain, &mut ran.next);
        }
        ran
    });
}

#[test]
fn a_ring_of_64_that_wraps_at_16() {
    let wrong: [Misplaced; 2] = [
        // In the place of the oldest, after another has left.
        |given, next| {
            if next.oldest != given.oldest {
                next.oldest %= 16;
            }
        },
        // In the place of one that joins.
        |given, next| {
            let end = (next.oldest + next.count + MAX_DEPTH - 1) % MAX_DEPTH;
            if next.slots[end] != given.slots[end] {
                next.slots[end % 16] = next.slots[end];
                next.slots[end] = given.slots[end];
            }
        },
    ];
    for misplace in wrong {
        misplaced_differs(|place| place.depth == MAX_DEPTH, misplace);
    }
}

#[test]
fn an_early_stall_ring_that_wraps_at_its_capacity() {
    misplaced_differs(
        |place| place.early_stall,
        |given, next| {
            if next.oldest != given.oldest && next.oldest == given.place.depth - 1 {
                next.oldest = 0;
            }
        },
    );
}

/// The places that a wrong program accepts.
const OTHER_PLACES: [fn(Place) -> bool; 10] = [
    |place| legal_place(place) && place.depth <= 16,
    |place| legal_place(place) && place.depth <= 62,
    |place| legal_place(place) || place.depth == 66,
    |place| legal_place(place) || place.depth == 65,
    |place| legal_place(place) || place.depth == 17,
    |place| legal_place(place) || place == Place::early_stall(2),
    |place| legal_place(place) && place != Place::early_stall(4),
    |place| legal_place(place) && place != Place::early_stall(64),
    |place| legal_place(place) && place != Place::plain(2),
    |place| legal_place(place) && !place.early_stall,
];

/// A place that the right calls accept where a program accepts this one, and refuse where it does not.
fn passed_place(accepts: fn(Place) -> bool, place: Place) -> Place {
    match accepts(place) {
        true if legal_place(place) => place,
        true if place.depth == 2 => Place::plain(2),
        true => Place::plain(MAX_DEPTH),
        false => Place::plain(0),
    }
}

#[test]
fn other_places_of_new_ones() {
    for accepts in OTHER_PLACES {
        differs(|random| {
            fifo::compare_new(random, |place| {
                let mut made = linked::fifo_new(passed_place(accepts, place));
                if made.refusal == 0 {
                    made.kept.place = place;
                }
                made
            })
        });
        differs(|random| {
            chain::compare_new(random, |places| {
                let passed = places.iter().map(|&place| passed_place(accepts, place));
                let mut made = linked::chain_new(&passed.collect::<Vec<_>>());
                if made.refusal == 0 {
                    let fifos = made.kept.fifos.iter_mut().zip(places);
                    fifos.for_each(|(fifo, &place)| fifo.place = place);
                }
                made
            })
        });
    }
}

#[test]
fn a_refused_new_one_that_is_early_stall() {
    // Of depth 2, and of the smallest legal depth.
    for place in [Place::early_stall(2), Place::early_stall(4)] {
        differs(|random| {
            fifo::compare_new(random, |asked| {
                let mut made = linked::fifo_new(asked);
                if made.refusal != 0 {
                    made.kept.place = place;
                }
                made
            })
        });
        differs(|random| {
            chain::compare_new(random, |places| {
                let mut made = linked::chain_new(places);
                if made.refusal != 0 {
                    made.kept.fifos[0].place = place;
                }
                made
            })
        });
    }
}

#[test]
fn a_new_chain_of_one_kind() {
    // All plain, and all as the mouth is.
    let wrong: [fn(&[Place]) -> bool; 2] = [|_| false, |places| places[0].early_stall];
    for kind in wrong {
        differs(|random| {
            chain::compare_new(random, |places| {
                let mut made = linked::chain_new(places);
                if made.refusal == 0 {
                    let fifos = made.kept.fifos.iter_mut();
                    fifos.for_each(|fifo| fifo.place.early_stall = kind(places));
                }
                made
            })
        });
    }
}

/// A step and a run that test a chain as `seen` makes it, and hand it back as `back` makes it, are told apart.
fn form_differs(seen: impl Fn(&mut Chain), back: impl Fn(&Chain, &mut Chain)) {
    differs(|random| {
        let kept = states::any_chain(random);
        chain::compare_step(random, kept, |chain, valid, payload, sink, clear| {
            let mut other = chain;
            seen(&mut other);
            let mut stepped = linked::chain_step(other, valid, payload, sink, clear);
            back(&chain, &mut stepped.next);
            stepped
        })
    });
    differs(|random| {
        let kept = states::any_chain(random);
        let offered = chain::offered(random);
        chain::compare_run(
            random,
            kept,
            &offered,
            |chain, offered, out_control, out_data| {
                let mut other = chain;
                seen(&mut other);
                let mut ran = linked::chain_run(other, offered, out_control, out_data);
                back(&chain, &mut ran.next);
                ran
            },
        )
    });
}

/// Steps and runs that test FIFOs as `seen` makes their place are told apart.
fn place_differs(seen: impl Fn(&Fifo) -> Place) {
    differs(|random| {
        fifo::compare_is_well(random, |mut fifo| {
            fifo.place = seen(&fifo);
            linked::fifo_is_well(fifo)
        })
    });
    differs(|random| {
        fifo::compare(random, |mut fifo, valid, payload, sink, clear| {
            let place = fifo.place;
            fifo.place = seen(&fifo);
            let mut stepped = linked::fifo_step(fifo, valid, payload, sink, clear);
            stepped.next.place = place;
            stepped
        })
    });
    form_differs(
        |chain| {
            let fifos = chain.fifos.iter_mut();
            fifos.for_each(|fifo| fifo.place = seen(fifo));
        },
        places_back,
    );
}

/// Gives the FIFOs of a chain that is handed back the places of those that were given.
fn places_back(given: &Chain, next: &mut Chain) {
    let fifos = next.fifos.iter_mut().zip(&given.fifos);
    fifos.for_each(|(fifo, given)| fifo.place = given.place);
}

#[test]
fn other_places_handed_in() {
    for accepts in OTHER_PLACES {
        place_differs(|fifo| passed_place(accepts, fifo.place));
    }
}

#[test]
fn held_counted_against_the_depth() {
    place_differs(|fifo| {
        let Fifo { place, count, .. } = *fifo;
        if legal_place(place) && count == place.depth {
            Place::plain(place.depth)
        } else {
            place
        }
    });
}

#[test]
fn a_position_bounded_by_the_capacity() {
    place_differs(|fifo| {
        let Fifo { place, oldest, .. } = *fifo;
        if place.early_stall && oldest.checked_add(1) == Some(place.depth) {
            Place::plain(0)
        } else {
            place
        }
    });
}

/// Steps and runs whose cycles take the FIFOs of a well-formed chain as of these places are told apart.
fn capacity_differs(taken: fn(&Fifo) -> Place) {
    let step = |fifo: Fifo, valid, payload, sink, clear| {
        let mut other = fifo;
        if Stage::of(&fifo).is_some() {
            other.place = taken(&fifo);
        }
        let mut stepped = linked::fifo_step(other, valid, payload, sink, clear);
        stepped.next.place = fifo.place;
        stepped
    };
    differs(|random| fifo::compare(random, step));
    differs(|random| fifo::compare_places(random, step));
    form_differs(
        |chain| {
            if Line::of(chain).is_some() {
                let fifos = chain.fifos[..chain.count].iter_mut();
                fifos.for_each(|fifo| fifo.place = taken(fifo));
            }
        },
        places_back,
    );
}

#[test]
fn early_stall_ready_with_one_less_than_its_depth() {
    capacity_differs(|fifo| Place::plain(fifo.place.depth));
}

#[test]
fn plain_ready_only_below_one_less_than_its_depth() {
    // Where an early-stall one is legal that holds as many.
    capacity_differs(|fifo| {
        let Fifo { place, count, .. } = *fifo;
        if place.depth > 2 && count < place.depth {
            Place::early_stall(place.depth)
        } else {
            place
        }
    });
}

/// Changes the kinds of a chain's FIFOs.
type Kinds = fn(&mut Chain);

/// All plain, and all as the mouth is.
const LOST: [Kinds; 2] = [
    |chain| {
        let fifos = chain.fifos.iter_mut();
        fifos.for_each(|fifo| fifo.place.early_stall = false);
    },
    |chain| {
        let early_stall = chain.fifos[0].place.early_stall;
        let fifos = chain.fifos.iter_mut();
        fifos.for_each(|fifo| fifo.place.early_stall = early_stall);
    },
];

#[test]
fn the_kind_lost_in_a_step() {
    // In one with no clear, and in a clear.
    for lost in [false, true] {
        differs(|random| {
            fifo::compare(random, |fifo, valid, payload, sink, clear| {
                let mut stepped = linked::fifo_step(fifo, valid, payload, sink, clear);
                if stepped.refusal == 0 && clear == lost {
                    stepped.next.place.early_stall = false;
                }
                stepped
            })
        });
        for lose in LOST {
            differs(|random| {
                let kept = states::well_chain(random);
                chain::compare_step(random, kept, |chain, valid, payload, sink, clear| {
                    let mut stepped = linked::chain_step(chain, valid, payload, sink, clear);
                    if stepped.refusal == 0 && clear == lost {
                        lose(&mut stepped.next);
                    }
                    stepped
                })
            });
        }
    }
}

#[test]
fn the_kind_lost_in_a_run() {
    for lose in LOST {
        // At its end, and in its clears.
        run_differs(|chain, offered, out_control, out_data| {
            let mut ran = linked::chain_run(chain, offered, out_control, out_data);
            if ran.refusal == 0 {
                lose(&mut ran.next);
            }
            ran
        });
        clear_differs(|chain, control, data, sink| {
            let (mut next, shown, word) = cycle(chain, control, data, sink);
            lose(&mut next);
            (next, shown, word)
        });
    }
}

#[test]
fn other_longest_chains() {
    for longest in [8, 15, 17] {
        let passed = |count: usize| {
            if count > longest {
                0
            } else {
                count.min(MAX_FIFOS)
            }
        };
        differs(|random| {
            chain::compare_new(random, |places| {
                let mut made = linked::chain_new(&places[..passed(places.len())]);
                if made.refusal == 0 {
                    made.kept.count = places.len();
                }
                made
            })
        });
        form_differs(
            |chain| chain.count = passed(chain.count),
            |chain, next| next.count = chain.count,
        );
    }
}

#[test]
fn places_tried_before_their_count() {
    // All of them, and the first sixteen.
    for tried in [usize::MAX, MAX_FIFOS] {
        differs(|random| {
            chain::compare_new(random, |places| {
                let mut made = linked::chain_new(places);
                if !places.iter().take(tried).all(|&place| legal_place(place)) {
                    made.refusal = 4;
                }
                made
            })
        });
    }
}

#[test]
fn a_refused_state_altered() {
    differs(|random| {
        fifo::compare(random, |fifo, valid, payload, sink, clear| {
            let mut stepped = linked::fifo_step(fifo, valid, payload, sink, clear);
            if stepped.refusal != 0 {
                stepped.next.slots[MAX_DEPTH - 1].data ^= 1;
            }
            stepped
        })
    });
}

#[test]
fn an_entry_past_the_trace_altered() {
    run_differs(|chain, offered, out_control, out_data| {
        let ran = linked::chain_run(chain, offered, out_control, out_data);
        if let Some(entry) = out_data.get_mut(offered.control.len()) {
            *entry ^= 1;
        }
        ran
    });
}

/// A wrong run of a chain is told apart.
fn run_differs(wrong: impl Fn(Chain, &Offered, &mut [u8], &mut [u32]) -> ChainRun) {
    differs(|random| {
        let kept = states::well_chain(random);
        let offered = chain::offered(random);
        chain::compare_run(random, kept, &offered, &wrong)
    });
}

/// One cycle of a run: what the chain is after it, and the outlet's control byte and data.
type Cycle = (Chain, u8, u32);

/// The cycle of a chain with this offer and this ready of the sink, by the linked run.
fn cycle(chain: Chain, control: u8, data: u32, sink: u8) -> Cycle {
    let offered = Offered {
        control: vec![control],
        data: vec![data],
        sink: vec![sink],
    };
    let (mut out_control, mut out_data) = ([0], [0]);
    let ran = linked::chain_run(chain, &offered, &mut out_control, &mut out_data);
    (ran.next, out_control[0], out_data[0])
}

/// A run whose clear cycles are these wrong ones is told apart.
fn clear_differs(wrong: impl Fn(Chain, u8, u32, u8) -> Cycle) {
    run_differs(|chain, offered, out_control, out_data| {
        let mut ran = linked::chain_run(chain, offered, out_control, out_data);
        if ran.refusal != 0 {
            return ran;
        }
        ran.next = chain;
        for c in 0..offered.control.len() {
            let (control, data) = (offered.control[c], offered.data[c]);
            let sink = offered.sink[c];
            let (next, shown, word) = if clear(control) {
                wrong(ran.next, control, data, sink)
            } else {
                cycle(ran.next, control, data, sink)
            };
            (ran.next, out_control[c], out_data[c]) = (next, shown, word);
        }
        ran
    });
}

#[test]
fn a_run_that_ignores_clear() {
    clear_differs(|chain, control, data, sink| cycle(chain, control & !4, data, sink));
    // It is written to the outlet nevertheless.
    clear_differs(|chain, control, data, sink| {
        let (next, shown, word) = cycle(chain, control & !4, data, sink);
        (next, shown | 4, word)
    });
}

#[test]
fn a_run_that_keeps_payloads_over_a_clear() {
    clear_differs(|chain, control, data, sink| {
        let (_, shown, word) = cycle(chain, control, data, sink);
        (chain, shown, word)
    });
    // In all FIFOs but the mouth's, and but the last.
    clear_differs(|chain, control, data, sink| {
        let (mut next, shown, word) = cycle(chain, control, data, sink);
        next.fifos[1..].copy_from_slice(&chain.fifos[1..]);
        (next, shown, word)
    });
    clear_differs(|chain, control, data, sink| {
        let (mut next, shown, word) = cycle(chain, control, data, sink);
        let last = chain.count - 1;
        next.fifos[..last].copy_from_slice(&chain.fifos[..last]);
        (next, shown, word)
    });
}

#[test]
fn a_run_that_accepts_an_offer_in_a_clear() {
    clear_differs(|chain, control, data, sink| {
        let (empty, shown, word) = cycle(chain, control, data, sink);
        let (next, _, _) = cycle(empty, control & !4, data, sink);
        (next, shown, word)
    });
}

#[test]
fn a_run_that_shows_its_outlet_in_a_clear() {
    clear_differs(|chain, control, data, sink| {
        let (_, shown, word) = cycle(chain, control & !4, data, sink);
        let (next, _, _) = cycle(chain, control, data, sink);
        (next, shown | 4, word)
    });
    // Its data or its strobes alone.
    clear_differs(|chain, control, data, sink| {
        let (_, _, word) = cycle(chain, control & !4, data, sink);
        let (next, shown, _) = cycle(chain, control, data, sink);
        (next, shown, word)
    });
    clear_differs(|chain, control, data, sink| {
        let (_, outlet, _) = cycle(chain, control & !4, data, sink);
        let (next, shown, word) = cycle(chain, control, data, sink);
        (next, shown | outlet & 0xf0, word)
    });
}

#[test]
fn a_run_with_another_byte_in_a_clear() {
    let wrong: [fn(u8, u8) -> u8; 4] = [
        |shown, _| shown & !4,
        |shown, _| shown & !2,
        |shown, _| shown | 2,
        // The offer's own.
        |_, control| control,
    ];
    for byte in wrong {
        clear_differs(|chain, control, data, sink| {
            let (next, shown, word) = cycle(chain, control, data, sink);
            (next, byte(shown, control), word)
        });
    }
}

#[test]
fn a_run_with_other_bits_reserved() {
    run_differs(|chain, offered, out_control, out_data| {
        let mut ran = linked::chain_run(chain, offered, out_control, out_data);
        if ran.refusal == 0 && clears(&offered.control) > 0 {
            (ran.refusal, ran.next) = (2, chain);
        }
        ran
    });
    run_differs(|chain, offered, out_control, out_data| {
        let mut legal = offered.clone();
        legal.control.iter_mut().for_each(|c| *c &= !8);
        linked::chain_run(chain, &legal, out_control, out_data)
    });
}

/// A call that answers otherwise is told apart. It is handed the right answer.
fn time_differs(wrong: impl Fn(Chain, usize, DeliveryTime) -> DeliveryTime) {
    differs(|random| {
        let (chain, i) = delivery_time::any_time(random);
        delivery_time::compare_time(random, chain, i, |chain, i| {
            wrong(chain, i, linked::chain_delivery_time(chain, i))
        })
    });
}

/// A call that finds another time for a payload that is held is told apart. It is handed the line and the right time.
fn found_differs(wrong: impl Fn(&Line, usize, usize) -> usize) {
    time_differs(|chain, i, mut answer| {
        if answer.refusal == 0 {
            answer.cycles = wrong(&Line::of(&chain).unwrap(), i, answer.cycles);
        }
        answer
    });
}

/// The FIFOs ahead of the one that holds payload i, and its number among those held there.
fn stands(line: &Line, mut i: usize) -> (usize, usize) {
    for (ahead, stage) in line.0.iter().rev().enumerate() {
        match i.checked_sub(stage.held.len()) {
            Some(left) => i = left,
            None => return (ahead, i),
        }
    }
    unreachable!()
}

#[test]
fn a_time_by_the_payloads_own_place() {
    found_differs(|line, i, _| stands(line, i).0);
    found_differs(|line, i, _| stands(line, i).0 + stands(line, i).1);
    found_differs(|line, i, _| stands(line, i).0 + i);
}

#[test]
fn a_time_by_the_number_of_payloads_ahead() {
    found_differs(|_, i, _| i);
    found_differs(|line, i, _| i.max(stands(line, i).0));
}

/// One more is what FIFOs numbered from 0 would give.
#[test]
fn a_time_one_cycle_off() {
    found_differs(|_, _, cycles| cycles + 1);
    found_differs(|_, _, cycles| cycles.saturating_sub(1));
}

#[test]
fn payloads_numbered_from_the_mouth() {
    found_differs(|line, i, _| models::chain::time_by_formula(line, line.held().len() - 1 - i));
}

#[test]
fn a_payload_that_is_not_held_answered() {
    time_differs(|chain, i, mut answer| {
        if answer.refusal == 8 && Line::of(&chain).is_some_and(|line| line.held().len() == i) {
            answer.refusal = 0;
        }
        answer
    });
}

#[test]
fn a_time_with_the_form_not_tested() {
    time_differs(|mut chain, i, answer| {
        let used = chain.fifos[..chain.count.min(MAX_FIFOS)].iter_mut();
        used.for_each(|fifo| fifo.slots.iter_mut().for_each(|slot| slot.strb &= 15));
        let trusted = linked::chain_delivery_time(chain, i);
        if answer.refusal == 6 {
            trusted
        } else {
            answer
        }
    });
}

#[test]
fn a_time_refused_in_another_order() {
    time_differs(|chain, i, mut answer| {
        let used = chain.fifos.get(..chain.count).unwrap_or(&[]);
        let counted = used
            .iter()
            .fold(0, |sum: usize, fifo| sum.saturating_add(fifo.count));
        if answer.refusal == 6 && counted <= i {
            answer.refusal = 8;
        }
        answer
    });
}

#[test]
fn a_refused_time_that_is_not_0() {
    for refusal in [6, 8] {
        time_differs(|_, i, mut answer| {
            if answer.refusal == refusal {
                answer.cycles = i;
            }
            answer
        });
    }
}

#[test]
fn the_other_trace_muxed() {
    differs(|random| {
        mux::compare(random, |traces, select, first, count, out| {
            linked::mux_static([traces[1], traces[0]], select, first, count, out)
        })
    });
}

#[test]
fn a_part_cut_to_its_room() {
    differs(|random| {
        mux::compare(random, |traces, select, first, count, out| {
            let fits = count.min(out.len());
            linked::mux_static(traces, select, first, fits, out)
        })
    });
}

#[test]
fn a_counter_that_starts_one_off() {
    differs(|random| {
        addressgen::compare(random, |settings, state, n, out| {
            let mut early = *state;
            early.c0 = early.c0.wrapping_sub(1);
            linked::addressgen_run(settings, &early, n, out)
        })
    });
}

/// A run that refuses another choice of settings with 11 differs.
fn store_rule_differs(wrong: impl Fn(&Settings) -> bool) {
    differs(|random| {
        addressgen::compare_edge(random, |settings, state, n, out| {
            if bad_mask(settings) || !wrong(settings) {
                let load = Settings {
                    store: false,
                    ..*settings
                };
                return linked::addressgen_run(&load, state, n, out);
            }
            AddressRun {
                refusal: 11,
                count: 0,
                state: *state,
                done: false,
            }
        })
    });
}

#[test]
fn other_settings_refused_with_11() {
    let wrong: [fn(&Settings) -> bool; 9] = [
        |_| false,
        |s| overwrites_itself(&Settings { store: true, ..*s }),
        |s| s.s0 == 0 && s.store || overwrites_itself(s),
        |s| {
            s.mask == 3 && s.d1 == 1 && s.s1 == 0 && s.total > s.d0 && s.store
                || overwrites_itself(s)
        },
        |s| s.mask == 2 && s.s1 == 0 && s.total > s.d0 && s.store || overwrites_itself(s),
        |s| s.mask == 1 && s.s1 == 0 && s.total == s.d0 && s.store || overwrites_itself(s),
        |s| {
            s.mask == 3 && s.s2 == 0 && s.total > s.d0.wrapping_mul(s.d1) && s.store
                || overwrites_itself(s)
        },
        |s| {
            !(s.mask == 3 && u64::from(s.total) == u64::from(s.d0) * u64::from(s.d1) + 1)
                && overwrites_itself(s)
        },
        |s| s.mask != 2 && overwrites_itself(s),
    ];
    for rule in wrong {
        store_rule_differs(rule);
    }
}

#[test]
fn a_store_with_nothing_to_do_accepted() {
    let wrong: [fn(&Settings, &State, usize) -> bool; 2] =
        [|_, _, n| n == 0, |s, t, _| t.ov == s.total];
    for idle in wrong {
        differs(|random| {
            addressgen::compare(random, |settings, state, n, out| {
                let mut given = *settings;
                given.store &= !idle(settings, state, n);
                linked::addressgen_run(&given, state, n, out)
            })
        });
    }
}

#[test]
fn refusal_11_in_another_place() {
    for (refusal, first) in [(10, 11), (11, 6), (11, 7)] {
        differs(|random| {
            addressgen::compare(random, |settings, state, n, out| {
                let mut answer = linked::addressgen_run(settings, state, n, out);
                let grounds = models::addressgen::grounds(settings, state, n, out.len());
                if answer.refusal == refusal && grounds.contains(&first) {
                    answer.refusal = first;
                }
                answer
            })
        });
    }
}

/// A call that answers an iteration's number otherwise is told apart. It is handed the right answer.
fn at_differs(wrong: impl Fn(&Settings, u32, AddressAt) -> AddressAt) {
    differs(|random| {
        address_at::compare_at(random, |settings, i| {
            wrong(settings, i, linked::address_at(settings, i))
        })
    });
}

/// A call that finds another address for some iteration is told apart. It is handed the right one.
fn address_differs(wrong: impl Fn(&Settings, u32, u32) -> u32) {
    at_differs(|settings, i, mut answer| {
        if answer.refusal == 0 {
            answer.address = wrong(settings, i, answer.address);
        }
        answer
    });
}

#[test]
fn an_iteration_that_there_is_not_answered() {
    at_differs(|settings, i, answer| match answer.refusal {
        8 if i == settings.total => AddressAt {
            refusal: 0,
            address: uncut(settings, i) as u32,
        },
        _ => answer,
    });
}

#[test]
fn the_last_iteration_refused() {
    at_differs(|settings, i, answer| match answer.refusal {
        0 if i == settings.total - 1 => AddressAt {
            refusal: 8,
            address: 0,
        },
        _ => answer,
    });
}

/// A call that takes this for the length of a plane is told apart.
fn plane_differs(length: fn(u32, u32) -> u64) {
    address_differs(|s, i, address| {
        if s.mask != 3 {
            return address;
        }
        let planes = |length: u64| (u64::from(i) / length) as u32;
        let right = planes(u64::from(s.d0) * u64::from(s.d1));
        let more = planes(length(s.d0, s.d1)).wrapping_sub(right);
        address.wrapping_add(more.wrapping_mul(s.s2))
    });
}

#[test]
fn other_lengths_of_a_plane() {
    plane_differs(|d0, d1| u64::from(d0) + u64::from(d1));
    plane_differs(|d0, _| u64::from(d0));
    // Cut to 32 bits. By 0 nothing is divided.
    plane_differs(|d0, d1| u64::from(d0.wrapping_mul(d1).max(1)));
}

#[test]
fn other_dimensions_by_the_mask() {
    // The mask, and the one that it is taken for where that is legal.
    for (mask, taken) in [(0, 1), (1, 0), (1, 3), (2, 1), (2, 3), (3, 1), (3, 2)] {
        address_differs(|settings, i, address| {
            let other = Settings {
                mask: taken,
                ..*settings
            };
            match settings.mask == mask && !bad_mask(&other) {
                true => uncut(&other, i) as u32,
                false => address,
            }
        });
    }
}

#[test]
fn an_address_of_another_number() {
    address_differs(|settings, i, _| uncut(settings, i.wrapping_add(1)) as u32);
    address_differs(|settings, i, _| uncut(settings, i % 65_536) as u32);
}

#[test]
fn lines_counted_on_from_plane_to_plane() {
    address_differs(|s, i, address| {
        if s.mask != 3 {
            return address;
        }
        let lines = i / s.d0;
        address.wrapping_add((lines - lines % s.d1).wrapping_mul(s.s1))
    });
}

#[test]
fn an_iteration_refused_in_another_order() {
    for (refusal, first) in [(10, 11), (10, 8), (11, 8)] {
        at_differs(|settings, i, mut answer| {
            if answer.refusal == refusal && grounds_at(settings, i).contains(&first) {
                answer.refusal = first;
            }
            answer
        });
    }
}

/// Makes settings legal in one thing.
type Mend = fn(&mut Settings);

const MENDS: [Mend; 4] = [
    |settings| settings.mask &= 3,
    |settings| settings.d0 = settings.d0.max(1),
    |settings| settings.d1 = settings.d1.max(1),
    |settings| settings.store = false,
];

#[test]
fn an_iteration_of_refused_settings_answered() {
    for mend in MENDS {
        at_differs(|settings, i, _| {
            let mut mended = *settings;
            mend(&mut mended);
            linked::address_at(&mended, i)
        });
    }
}

#[test]
fn a_refused_address_that_is_not_0() {
    for refusal in [10, 11, 8] {
        at_differs(|settings, _, mut answer| {
            if answer.refusal == refusal {
                answer.address = settings.base;
            }
            answer
        });
    }
}

/// A wrong overlap is told apart.
fn overlap_differs(wrong: impl Fn(&Settings, &Settings, &mut [u32]) -> Filled) {
    differs(|random| address_at::compare_overlap(random, &wrong));
}

/// An index that is listed, and the address of its iteration.
type Met = (u32, u32);

/// What a wrong overlap lists: of the two settings, and what is right.
type Listing = fn(&Settings, &Settings, Vec<Met>) -> Vec<Met>;

/// A call that lists other indices is told apart.
fn listed_differs(wrong: Listing) {
    overlap_differs(|first, second, out| {
        let before = out.to_vec();
        let mut filled = linked::overlap(first, second, out);
        if filled.refusal == 0 {
            let all: Vec<Met> = (0..).zip(addresses(first)).collect();
            let right = out[..filled.count].iter().map(|&i| all[i as usize]);
            let listed = wrong(first, second, right.collect());
            out.copy_from_slice(&before);
            for (entry, (i, _)) in out.iter_mut().zip(&listed) {
                *entry = *i;
            }
            filled.count = listed.len();
        }
        filled
    });
}

#[test]
fn the_indices_of_the_second_listed() {
    listed_differs(|_, second, right| {
        let place = |met| (0..).zip(addresses(second)).find(|other| other.1 == met);
        right
            .into_iter()
            .map(|(_, met)| place(met).unwrap())
            .collect()
    });
}

#[test]
fn an_address_that_comes_twice_listed_once() {
    // By its first index, and by its last.
    listed_differs(|_, _, mut right| {
        let mut seen = HashSet::new();
        right.retain(|&(_, met)| seen.insert(met));
        right
    });
    listed_differs(|_, _, right| {
        let last: BTreeMap<u32, u32> = right.iter().map(|&(i, met)| (met, i)).collect();
        let once = right.into_iter();
        once.filter(|(i, met)| last[met] == *i).collect()
    });
}

#[test]
fn words_compared_in_place_of_addresses() {
    listed_differs(|first, second, _| {
        let words: HashSet<u32> = addresses(second).map(|address| address / 4).collect();
        let all = (0..).zip(addresses(first));
        all.filter(|(_, address)| words.contains(&(address / 4)))
            .collect()
    });
}

#[test]
fn other_indices_listed() {
    let wrong: [Listing; 5] = [
        // The addresses themselves.
        |_, _, right| right.into_iter().map(|(_, met)| (met, met)).collect(),
        // Falling.
        |_, _, right| right.into_iter().rev().collect(),
        // Those not met.
        |first, _, right| {
            let all = (0..).zip(addresses(first));
            all.filter(|other| !right.contains(other)).collect()
        },
        // Where both yield the same address in the same iteration.
        |_, second, right| {
            let all: Vec<Met> = (0..).zip(addresses(second)).collect();
            right.into_iter().filter(|met| all.contains(met)).collect()
        },
        // The last iteration of the second left out.
        |_, second, mut right| {
            let but_one = second.total.saturating_sub(1) as usize;
            let others: HashSet<u32> = addresses(second).take(but_one).collect();
            right.retain(|(_, met)| others.contains(met));
            right
        },
    ];
    for wrong in wrong {
        listed_differs(wrong);
    }
}

#[test]
fn entries_past_the_count_cleared() {
    // Up to the first total, and to the end.
    for all in [false, true] {
        overlap_differs(|first, second, out| {
            let filled = linked::overlap(first, second, out);
            if filled.refusal == 0 {
                let end = if all { out.len() } else { first.total as usize };
                out[filled.count..end].fill(0);
            }
            filled
        });
    }
}

#[test]
fn room_asked_for_what_is_met() {
    overlap_differs(|first, second, out| {
        let filled = linked::overlap(first, second, out);
        if filled.refusal != 7 {
            return filled;
        }
        let mut all = vec![0; first.total as usize];
        let met = linked::overlap(first, second, &mut all);
        match out.get_mut(..met.count) {
            Some(room) => room.copy_from_slice(&all[..met.count]),
            None => return filled,
        }
        met
    });
}

#[test]
fn an_overlap_refused_in_another_order() {
    let wrong = [
        ("3", "10 of the first"),
        ("3", "11 of the first"),
        ("3", "10 of the second"),
        ("3", "11 of the second"),
        ("3", "7"),
        ("10 of the first", "11 of the first"),
        ("10 of the first", "11 of the second"),
        ("11 of the first", "10 of the second"),
        ("10 of the second", "11 of the second"),
        ("10 of the first", "7"),
        ("11 of the first", "7"),
        ("10 of the second", "7"),
        ("11 of the second", "7"),
    ];
    for (right, tried_first) in wrong {
        overlap_differs(|first, second, out| {
            let mut filled = linked::overlap(first, second, out);
            let grounds = overlap_grounds(first, second, out.len());
            let before = grounds.iter().find(|ground| ground.1 == tried_first);
            match (grounds.first(), before) {
                (Some(ground), Some(&(number, _))) if ground.1 == right => filled.refusal = number,
                _ => {}
            }
            filled
        });
    }
}

/// An overlap that refuses with this number where `wrong` says so, of the settings and the room, is told apart.
fn overlap_refusal_differs(refusal: u8, wrong: fn(&Settings, &Settings, usize) -> bool) {
    overlap_differs(|first, second, out| match wrong(first, second, out.len()) {
        true => Filled { refusal, count: 0 },
        false => linked::overlap(first, second, out),
    });
}

#[test]
fn other_overlaps_refused() {
    overlap_refusal_differs(3, |first, _, _| first.total >= MAX_ITERATIONS);
    overlap_refusal_differs(3, |_, second, _| second.total >= MAX_ITERATIONS);
    overlap_refusal_differs(3, |first, second, _| {
        first.total.max(second.total) <= MAX_ITERATIONS
            && first.total + second.total > MAX_ITERATIONS
    });
    overlap_refusal_differs(7, |first, second, room| {
        let others = overlap_grounds(first, second, usize::MAX);
        others.is_empty() && room < second.total as usize
    });
    overlap_refusal_differs(7, |first, second, room| {
        let others = overlap_grounds(first, second, usize::MAX);
        others.is_empty() && room <= first.total as usize
    });
}

#[test]
fn refused_settings_of_one_side_overlapped() {
    // With what is too long cut off.
    let cut: Mend = |settings| settings.total = settings.total.min(MAX_ITERATIONS);
    for mend in MENDS.into_iter().chain([cut]) {
        for side in [0, 1] {
            overlap_differs(|first, second, out| {
                let mut sides = [*first, *second];
                mend(&mut sides[side]);
                linked::overlap(&sides[0], &sides[1], out)
            });
        }
    }
}

#[test]
fn a_refused_overlap_that_writes_or_counts() {
    for refusal in [3, 10, 11, 7] {
        overlap_differs(|first, second, out| {
            let filled = linked::overlap(first, second, out);
            if filled.refusal == refusal {
                out.iter_mut().take(1).for_each(|entry| *entry ^= 1);
            }
            filled
        });
        overlap_differs(|first, second, out| {
            let mut filled = linked::overlap(first, second, out);
            if filled.refusal == refusal {
                filled.count = 1;
            }
            filled
        });
    }
}

#[test]
fn a_plan_from_the_next_byte() {
    differs(|random| {
        strobes::compare(random, |address, n, out| {
            linked::strobe_plan(address.wrapping_add(1), n, out)
        })
    });
}

/// A wrong source is told apart.
fn source_differs(wrong: impl Fn(u32, u32, &[u32], &[u8], &mut [u32]) -> Filled) {
    differs(|random| realign::compare_source(random, &wrong));
}

/// A wrong sink is told apart.
fn sink_differs(wrong: impl Fn(u32, &[u32], &mut [u32], &mut [u8]) -> Filled) {
    differs(|random| realign::compare_sink(random, &wrong));
}

/// The plan as a list.
fn planned(address: u32, n: u32) -> Vec<u8> {
    plan(address, n).collect()
}

#[test]
fn remainders_exchanged() {
    for (one, other) in [(1, 3), (1, 2), (2, 3), (0, 1), (0, 2), (0, 3)] {
        let exchanged = |address: u32| match address % 4 {
            m if m == one => address - one + other,
            m if m == other => address - other + one,
            _ => address,
        };
        source_differs(|address, n, words, strobes, out| {
            linked::realign_source(exchanged(address), n, words, strobes, out)
        });
        sink_differs(|address, packets, out_words, out_strobes| {
            linked::realign_sink(exchanged(address), packets, out_words, out_strobes)
        });
        // Only where the words are read.
        source_differs(|address, n, words, strobes, out| {
            let filled = linked::realign_source(address, n, words, strobes, out);
            if filled.refusal != 0 {
                return filled;
            }
            let strobes = planned(exchanged(address), n);
            let mut words = words.to_vec();
            words.resize(strobes.len(), 0);
            linked::realign_source(exchanged(address), n, &words, &strobes, out)
        });
        // In the strobes alone, and in the words alone.
        sink_differs(|address, packets, out_words, out_strobes| {
            let filled = linked::realign_sink(address, packets, out_words, out_strobes);
            let strobes = planned(exchanged(address), packets.len() as u32);
            let entries = out_strobes[..filled.count].iter_mut().zip(strobes);
            entries.for_each(|(entry, strobe)| *entry = strobe);
            filled
        });
        sink_differs(|address, packets, out_words, out_strobes| {
            let filled = linked::realign_sink(address, packets, out_words, out_strobes);
            let room = filled.count + 1;
            let (mut words, mut strobes) = (vec![0; room], vec![0; room]);
            linked::realign_sink(exchanged(address), packets, &mut words, &mut strobes);
            out_words[..filled.count].copy_from_slice(&words[..filled.count]);
            filled
        });
    }
}

/// Alters packets, by the remainder and the words.
type OtherPackets = fn(u32, &[u32], &mut [u32]);

/// A source that gives other packets is told apart. It is handed the right ones, one or more.
fn packets_differ(wrong: OtherPackets) {
    source_differs(|address, n, words, strobes, out| {
        let filled = linked::realign_source(address, n, words, strobes, out);
        if filled.count > 0 {
            wrong(address % 4, words, &mut out[..filled.count]);
        }
        filled
    });
}

#[test]
fn other_packets_in_words() {
    let wrong: [OtherPackets; 10] = [
        // The bytes in the other order, and by one place on.
        |_, _, packets| packets.iter_mut().for_each(|p| *p = p.swap_bytes()),
        |_, _, packets| packets.iter_mut().for_each(|p| *p = p.rotate_left(8)),
        // The halves exchanged.
        |_, _, packets| packets.iter_mut().for_each(|p| *p = p.rotate_left(16)),
        // The words themselves.
        |_, words, packets| packets.copy_from_slice(&words[..packets.len()]),
        // From each word alone, with its other bytes or with bytes of 0.
        |m, words, packets| {
            let pairs = packets.iter_mut().zip(words);
            pairs.for_each(|(packet, word)| *packet = word.rotate_right(8 * m));
        },
        |m, words, packets| {
            let pairs = packets.iter_mut().zip(words);
            pairs.for_each(|(packet, word)| *packet = word >> (8 * m));
        },
        // The first and the last with null bytes.
        |m, words, packets| packets[0] |= words[0].checked_shl(32 - 8 * m).unwrap_or(0),
        |m, words, packets| packets[packets.len() - 1] |= words[words.len() - 1] >> (8 * m),
        // The last without the last word.
        |m, _, packets| {
            let last = packets.len() - 1;
            packets[last] &= u32::MAX >> (8 * m);
        },
        // The last packet first.
        |_, _, packets| packets.reverse(),
    ];
    for wrong in wrong {
        packets_differ(wrong);
    }
}

/// Alters words and strobes, by what was in the buffer of words.
type OtherWords = fn(&[u32], &mut [u32], &mut [u8]);

/// A sink that makes other words or strobes is told apart. It is handed the right ones, one or more.
fn words_differ(wrong: OtherWords) {
    sink_differs(|address, packets, out_words, out_strobes| {
        let before = out_words.to_vec();
        let filled = linked::realign_sink(address, packets, out_words, out_strobes);
        if filled.count > 0 {
            let (words, strobes) = (
                &mut out_words[..filled.count],
                &mut out_strobes[..filled.count],
            );
            wrong(&before, words, strobes);
        }
        filled
    });
}

/// The bits of a word's null bytes.
fn null_bytes(strobe: u8) -> u32 {
    u32::from_le_bytes([1, 2, 4, 8].map(|bit| if strobe & bit == 0 { 255 } else { 0 }))
}

#[test]
fn null_bytes_not_0() {
    let wrong: [OtherWords; 5] = [
        // As they were, in the first word and in the last.
        |before, words, strobes| words[0] |= before[0] & null_bytes(strobes[0]),
        |before, words, strobes| {
            let last = words.len() - 1;
            words[last] |= before[last] & null_bytes(strobes[last]);
        },
        // Bytes of another word, in the first word and in the last.
        |_, words, strobes| words[0] |= words[1 % words.len()] & null_bytes(strobes[0]),
        |_, words, strobes| {
            let last = words.len() - 1;
            words[last] |= words[0] & null_bytes(strobes[last]);
        },
        // All ones.
        |_, words, strobes| words[0] |= null_bytes(strobes[0]),
    ];
    for wrong in wrong {
        words_differ(wrong);
    }
}

#[test]
fn other_words_of_packets() {
    let wrong: [OtherWords; 9] = [
        |_, words, _| words.iter_mut().for_each(|word| *word = word.swap_bytes()),
        |_, words, _| words.reverse(),
        // The last word, and the last strobe, as 0.
        |_, words, _| words[words.len() - 1] = 0,
        |_, _, strobes| strobes[strobes.len() - 1] = 0,
        // The last word as it was.
        |before, words, _| words[words.len() - 1] = before[words.len() - 1],
        // Strobes of 15 in the first and the last word.
        |_, _, strobes| strobes[0] = 15,
        |_, _, strobes| strobes[strobes.len() - 1] = 15,
        // Their bits in the other order.
        |_, _, strobes| strobes.iter_mut().for_each(|s| *s = s.reverse_bits() >> 4),
        // One in the middle without its last byte.
        |_, _, strobes| {
            if strobes.len() > 2 {
                strobes[1] = 7;
            }
        },
    ];
    for wrong in wrong {
        words_differ(wrong);
    }
    // The bytes of a packet in the other order.
    sink_differs(|address, packets, out_words, out_strobes| {
        let packets: Vec<u32> = packets.iter().map(|packet| packet.swap_bytes()).collect();
        linked::realign_sink(address, &packets, out_words, out_strobes)
    });
}

#[test]
fn the_last_word_of_packets_left_out() {
    sink_differs(|address, packets, out_words, out_strobes| {
        let before = (out_words.to_vec(), out_strobes.to_vec());
        let mut filled = linked::realign_sink(address, packets, out_words, out_strobes);
        if filled.count > packets.len() {
            filled.count -= 1;
            out_words[filled.count] = before.0[filled.count];
            out_strobes[filled.count] = before.1[filled.count];
        }
        filled
    });
}

/// What a source takes strobes for, by the plan and the strobes.
type Seen = fn(&[u8], &[u8]) -> Vec<u8>;

/// A source that takes strobes for others, and as many words, is told apart.
fn strobes_differ(seen: Seen) {
    source_differs(|address, n, words, strobes, out| {
        if words.len() != strobes.len() || n as usize > MAX_PACKETS {
            return linked::realign_source(address, n, words, strobes, out);
        }
        let seen = seen(&planned(address, n), strobes);
        let mut words = words.to_vec();
        words.resize(seen.len(), 0);
        linked::realign_source(address, n, &words, &seen, out)
    });
}

/// The strobes with the plan's in these places, where there are as many.
fn mended(plan: &[u8], strobes: &[u8], places: impl Fn(usize) -> bool) -> Vec<u8> {
    let mut mended = strobes.to_vec();
    for (at, entry) in mended.iter_mut().enumerate() {
        if plan.len() == strobes.len() && places(at) {
            *entry = plan[at];
        }
    }
    mended
}

/// The plan where this is so, or the strobes.
fn plan_if(is: bool, plan: &[u8], strobes: &[u8]) -> Vec<u8> {
    if is { plan } else { strobes }.to_vec()
}

#[test]
fn other_strobes_accepted() {
    let wrong: [Seen; 14] = [
        // Any in the first place, in the last, in the middle, and in the places past the second.
        |plan, strobes| mended(plan, strobes, |at| at == 0),
        |plan, strobes| mended(plan, strobes, |at| at + 1 == plan.len()),
        |plan, strobes| mended(plan, strobes, |at| at > 0 && at + 1 < plan.len()),
        |plan, strobes| mended(plan, strobes, |at| at > 1),
        // One wrong strobe in the middle.
        |plan, strobes| {
            let at = |at: &usize| plan.get(*at) != strobes.get(*at);
            let wrong: Vec<usize> = (0..plan.len()).filter(at).collect();
            let one = wrong.len() == 1 && wrong[0] > 0 && wrong[0] + 1 < plan.len();
            mended(plan, strobes, |_| one)
        },
        // Any, as many as the plan's.
        |plan, strobes| mended(plan, strobes, |_| true),
        // Any that name as many bytes.
        |plan, strobes| {
            let named = |strobes: &[u8]| strobes.iter().map(|s| s.count_ones()).sum::<u32>();
            plan_if(named(plan) == named(strobes), plan, strobes)
        },
        // Those that name the plan's bytes and others.
        |plan, strobes| {
            let mut pairs = plan.iter().zip(strobes);
            let named = pairs.all(|(plan, strobe)| plan & strobe == *plan);
            mended(plan, strobes, |_| named)
        },
        // With high bits, in all places and in one.
        |_, strobes| strobes.iter().map(|strobe| strobe % 16).collect(),
        |plan, strobes| {
            let mut low = strobes.to_vec();
            low.iter_mut().take(1).for_each(|strobe| *strobe %= 16);
            plan_if(low == plan, plan, strobes)
        },
        // With one word more, and with one fewer.
        |plan, strobes| {
            let more = strobes.split_last().is_some_and(|s| s.1 == plan);
            plan_if(more, plan, strobes)
        },
        |plan, strobes| {
            let fewer = plan.split_last().is_some_and(|p| p.1 == strobes);
            plan_if(fewer, plan, strobes)
        },
        // No words.
        |plan, strobes| plan_if(strobes.is_empty(), plan, strobes),
        // Words where there are no packets.
        |plan, strobes| plan_if(plan.is_empty(), plan, strobes),
    ];
    for seen in wrong {
        strobes_differ(seen);
    }
}

/// Other addresses and numbers of packets.
type OtherRows = fn(u32, u32) -> [(u32, u32); 3];

#[test]
fn the_plan_of_another_row_accepted() {
    // Of another remainder, of one packet more, and of one fewer.
    let wrong: [OtherRows; 3] = [
        |address, n| [1, 2, 3].map(|more| (address.wrapping_add(more), n)),
        |address, n| [(address, n + 1); 3],
        |address, n| [(address, n.max(1) - 1); 3],
    ];
    for rows in wrong {
        source_differs(|address, n, words, strobes, out| {
            let other = |(address, n)| plan(address, n).eq(strobes.iter().copied());
            if words.len() != strobes.len()
                || n as usize > MAX_PACKETS
                || !rows(address, n).into_iter().any(other)
            {
                return linked::realign_source(address, n, words, strobes, out);
            }
            let strobes = planned(address, n);
            let mut words = words.to_vec();
            words.resize(strobes.len(), 0);
            linked::realign_source(address, n, &words, &strobes, out)
        });
    }
}

#[test]
fn a_strobe_above_15_refused_with_2() {
    source_differs(|address, n, words, strobes, out| {
        let mut filled = linked::realign_source(address, n, words, strobes, out);
        if filled.refusal == 12 && strobes.iter().any(|&strobe| strobe > 15) {
            filled.refusal = 2;
        }
        filled
    });
}

#[test]
fn a_realigner_that_refuses_in_another_order() {
    for (refusal, first) in [(1, 3), (1, 7), (1, 12), (3, 7), (3, 12), (7, 12)] {
        source_differs(|address, n, words, strobes, out| {
            let mut filled = linked::realign_source(address, n, words, strobes, out);
            let grounds = source_grounds(address, n, words, strobes, out.len());
            if filled.refusal == refusal && grounds.contains(&first) {
                filled.refusal = first;
            }
            filled
        });
    }
    sink_differs(|address, packets, out_words, out_strobes| {
        let mut filled = linked::realign_sink(address, packets, out_words, out_strobes);
        let rooms = [out_words.len(), out_strobes.len()];
        if filled.refusal == 3 && sink_grounds(address, packets, rooms).contains(&7) {
            filled.refusal = 7;
        }
        filled
    });
}

#[test]
fn other_numbers_of_packets_refused() {
    // The most that there may be are one fewer, and one more.
    source_differs(|address, n, words, strobes, out| {
        let mut filled = linked::realign_source(address, n, words, strobes, out);
        if filled.count == MAX_PACKETS {
            (filled.refusal, filled.count) = (3, 0);
        }
        filled
    });
    source_differs(|address, n, words, strobes, out| {
        let mut filled = linked::realign_source(address, n, words, strobes, out);
        let grounds = source_grounds(address, n, words, strobes, out.len());
        if n as usize == MAX_PACKETS + 1 && grounds == [3] {
            (filled.refusal, filled.count) = (0, n as usize);
        }
        filled
    });
    sink_differs(
        |address, packets, out_words, out_strobes| match packets.len() {
            MAX_PACKETS => Filled {
                refusal: 3,
                count: 0,
            },
            _ => linked::realign_sink(address, packets, out_words, out_strobes),
        },
    );
    sink_differs(|address, packets, out_words, out_strobes| {
        let taken = &packets[..packets.len().min(MAX_PACKETS)];
        linked::realign_sink(address, taken, out_words, out_strobes)
    });
    // Words are counted in place of packets.
    sink_differs(|address, packets, out_words, out_strobes| {
        let mut filled = linked::realign_sink(address, packets, out_words, out_strobes);
        if filled.count > MAX_PACKETS {
            (filled.refusal, filled.count) = (3, 0);
        }
        filled
    });
    // The number cut to 16 bits, and to 30.
    for bits in [16, 30] {
        source_differs(|address, n, words, strobes, out| {
            linked::realign_source(address, n % (1 << bits), words, strobes, out)
        });
    }
}

#[test]
fn no_packets_that_make_a_word() {
    // A source that needs it, and one that needs room; a sink that makes it, and one that needs room.
    source_differs(|address, n, words, strobes, out| {
        let mut filled = linked::realign_source(address, n, words, strobes, out);
        if n == 0 && filled.refusal == 0 && address % 4 > 0 {
            filled.refusal = 12;
        }
        filled
    });
    source_differs(|address, n, words, strobes, out| {
        let mut filled = linked::realign_source(address, n, words, strobes, out);
        if n == 0 && filled.refusal == 0 && out.is_empty() {
            filled.refusal = 7;
        }
        filled
    });
    sink_differs(|address, packets, out_words, out_strobes| {
        let mut filled = linked::realign_sink(address, packets, out_words, out_strobes);
        if packets.is_empty() && !out_words.is_empty() && !out_strobes.is_empty() {
            (out_words[0], out_strobes[0], filled.count) = (0, 0, 1);
        }
        filled
    });
    sink_differs(|address, packets, out_words, out_strobes| {
        let mut filled = linked::realign_sink(address, packets, out_words, out_strobes);
        if packets.is_empty() && out_words.is_empty() {
            filled.refusal = 7;
        }
        filled
    });
}

#[test]
fn other_rooms_asked_for_by_a_source() {
    // Room for the words, and for one packet less.
    source_differs(|address, n, words, strobes, out| {
        let filled = linked::realign_source(address, n, words, strobes, &mut out.to_vec());
        match filled.refusal {
            0 if out.len() < words.len() => Filled {
                refusal: 7,
                count: 0,
            },
            _ => linked::realign_source(address, n, words, strobes, out),
        }
    });
    source_differs(|address, n, words, strobes, out| {
        let mut all = out.to_vec();
        if all.len() < n as usize {
            all.push(0);
        }
        let filled = linked::realign_source(address, n, words, strobes, &mut all);
        out.copy_from_slice(&all[..out.len()]);
        filled
    });
}

/// A sink that needs other rooms for words and strobes is told apart. It is handed the numbers of packets and words.
fn rooms_differ(wrong: fn(usize, usize) -> [usize; 2]) {
    sink_differs(|address, packets, out_words, out_strobes| {
        let needed = plan(address, packets.len() as u32).len();
        let asked = wrong(packets.len(), needed);
        let short = out_words.len() < asked[0] || out_strobes.len() < asked[1];
        if short && packets.len() <= MAX_PACKETS {
            return Filled {
                refusal: 7,
                count: 0,
            };
        }
        let (mut words, mut strobes) = (out_words.to_vec(), out_strobes.to_vec());
        words.resize(words.len().max(needed), 0);
        strobes.resize(strobes.len().max(needed), 0);
        let filled = linked::realign_sink(address, packets, &mut words, &mut strobes);
        out_words.copy_from_slice(&words[..out_words.len()]);
        out_strobes.copy_from_slice(&strobes[..out_strobes.len()]);
        filled
    });
}

#[test]
fn other_rooms_asked_for_by_a_sink() {
    let wrong: [fn(usize, usize) -> [usize; 2]; 7] = [
        // Of the packets.
        |packets, _| [packets; 2],
        |packets, words| [packets, words],
        |packets, words| [words, packets],
        // Of one of the two alone.
        |_, words| [words, 0],
        |_, words| [0, words],
        // One more for every remainder.
        |packets, words| [words.max(packets + 1), words],
        |packets, words| [words, words.max(packets + 1)],
    ];
    for asked in wrong {
        rooms_differ(asked);
    }
}

#[test]
fn entries_past_the_packets_or_words_altered() {
    // The next one, and the last one.
    let places: [fn(usize, usize) -> usize; 2] = [|count, _| count, |_, room| room.max(1) - 1];
    for place in places {
        source_differs(|address, n, words, strobes, out| {
            let filled = linked::realign_source(address, n, words, strobes, out);
            let at = place(filled.count, out.len());
            if filled.refusal == 0 && at >= filled.count {
                out.iter_mut().skip(at).take(1).for_each(|entry| *entry = 0);
            }
            filled
        });
        sink_differs(|address, packets, out_words, out_strobes| {
            let filled = linked::realign_sink(address, packets, out_words, out_strobes);
            let at = place(filled.count, out_words.len());
            if filled.refusal == 0 && at >= filled.count {
                let entry = out_words.iter_mut().skip(at).take(1);
                entry.for_each(|entry| *entry = 0);
            }
            filled
        });
        sink_differs(|address, packets, out_words, out_strobes| {
            let filled = linked::realign_sink(address, packets, out_words, out_strobes);
            let at = place(filled.count, out_strobes.len());
            if filled.refusal == 0 && at >= filled.count {
                let entry = out_strobes.iter_mut().skip(at).take(1);
                entry.for_each(|entry| *entry = !*entry);
            }
            filled
        });
    }
}

#[test]
fn a_refused_realigner_that_writes_or_counts() {
    for refusal in [1, 3, 7, 12] {
        source_differs(|address, n, words, strobes, out| {
            let filled = linked::realign_source(address, n, words, strobes, out);
            if filled.refusal == refusal {
                out.iter_mut().take(1).for_each(|entry| *entry ^= 1);
            }
            filled
        });
        source_differs(|address, n, words, strobes, out| {
            let mut filled = linked::realign_source(address, n, words, strobes, out);
            if filled.refusal == refusal {
                filled.count = n as usize;
            }
            filled
        });
    }
    // The packets up to the wrong strobe.
    source_differs(|address, n, words, strobes, out| {
        let filled = linked::realign_source(address, n, words, strobes, out);
        if filled.refusal == 12 && address % 4 == 0 {
            let pairs = words.iter().zip(strobes);
            let right = pairs.take_while(|(_, &strobe)| strobe == 15);
            let entries = out[..n as usize].iter_mut().zip(right);
            entries.for_each(|(entry, (word, _))| *entry = *word);
        }
        filled
    });
    for refusal in [3, 7] {
        sink_differs(|address, packets, out_words, out_strobes| {
            let filled = linked::realign_sink(address, packets, out_words, out_strobes);
            if filled.refusal == refusal {
                out_words.iter_mut().take(1).for_each(|entry| *entry ^= 1);
            }
            filled
        });
        sink_differs(|address, packets, out_words, out_strobes| {
            let filled = linked::realign_sink(address, packets, out_words, out_strobes);
            if filled.refusal == refusal {
                out_strobes.iter_mut().take(1).for_each(|entry| *entry ^= 1);
            }
            filled
        });
        sink_differs(|address, packets, out_words, out_strobes| {
            let mut filled = linked::realign_sink(address, packets, out_words, out_strobes);
            if filled.refusal == refusal {
                filled.count = packets.len();
            }
            filled
        });
    }
}

#[test]
fn a_report_without_its_last_line() {
    differs(|random| {
        bench_text::compare(random, |text, out| {
            let mut filled = linked::report(text, out);
            let last = out[..filled.count].iter().rposition(|&b| b == b'c');
            filled.count = last.unwrap_or(0);
            filled
        })
    });
}

#[test]
fn a_last_line_feed_overlooked() {
    differs(|random| {
        bench_text::compare(random, |text, out| {
            linked::report(text.strip_suffix(b"\n").unwrap_or(text), out)
        })
    });
}

/// A wrong feed differs from the right one after a burst, and in what its record says in the end.
fn feed_differs(wrong: fn(&mut Monitor, &[u8], &[u32]) -> u8) {
    differs(|random| monitor::compare(random, wrong));
    differs(|random| monitor::compare_end(random, wrong));
}

#[test]
fn a_stall_forgotten_at_a_cut() {
    feed_differs(|record, control, data| {
        let refusal = linked::monitor_feed(record, control, data);
        (record.stalled, record.payload) = (false, NOTHING);
        refusal
    });
}

#[test]
fn a_counter_forgotten_at_a_cut() {
    feed_differs(|record, control, data| {
        let refusal = linked::monitor_feed(record, control, data);
        (record.counted, record.due) = (false, 0);
        refusal
    });
}

#[test]
fn a_refused_burst_counted() {
    feed_differs(|record, control, data| {
        let refusal = linked::monitor_feed(record, control, data);
        if refusal != 0 {
            record.cycles = record.cycles.saturating_add(control.len() as u32);
        }
        refusal
    });
}

#[test]
fn a_refused_burst_fed_up_to_its_reserved_bit() {
    feed_differs(|record, control, data| {
        let refusal = linked::monitor_feed(record, control, data);
        if refusal == 2 {
            let legal = control.split(|c| c & 8 != 0).next().unwrap();
            linked::monitor_feed(record, legal, &data[..legal.len()]);
        }
        refusal
    });
}

#[test]
fn a_broken_record_broken_again() {
    feed_differs(|record, control, data| {
        let mut anew = linked::monitor_fresh(record.seq);
        anew.cycles = record.cycles;
        let was = record.verdict;
        let refusal = linked::monitor_feed(record, control, data);
        linked::monitor_feed(&mut anew, control, data);
        if (refusal, was, anew.verdict) == (0, BROKEN, BROKEN) {
            *record = anew;
        }
        refusal
    });
}

#[test]
fn a_stall_in_a_clear_kept_at_a_cut() {
    feed_differs(|record, control, data| {
        let refusal = linked::monitor_feed(record, control, data);
        let last = control.last().zip(data.last());
        if let (0, CLEAN, Some((&c, &data))) = (refusal, record.verdict, last) {
            // Where the cycles have room for it.
            let others = record.cycles - record.handshakes - record.clears;
            if c & 7 == 5 && others > 0 {
                let strb = c >> 4;
                (record.stalled, record.payload) = (true, Payload { data, strb });
            }
        }
        refusal
    });
}

#[test]
fn a_stall_kept_over_a_clear() {
    feed_differs(|record, control, data| {
        let before = *record;
        let refusal = linked::monitor_feed(record, control, data);
        let last = control.last().is_some_and(|&c| clear(c));
        if refusal == 0 && record.verdict == CLEAN && last {
            (record.stalled, record.payload) = (before.stalled, before.payload);
        }
        refusal
    });
}

#[test]
fn a_counter_kept_over_a_clear() {
    feed_differs(|record, control, data| {
        let before = *record;
        let refusal = linked::monitor_feed(record, control, data);
        if record.verdict == CLEAN && !record.counted {
            (record.counted, record.due) = (before.counted, before.due);
        }
        refusal
    });
}

#[test]
fn a_clear_counted_as_a_handshake_in_a_burst() {
    feed_differs(|record, control, data| {
        let refusal = linked::monitor_feed(record, control, data);
        if refusal == 0 && control.last().is_some_and(|c| c & 7 == 7) {
            record.handshakes += 1;
        }
        refusal
    });
}

#[test]
fn clears_that_grow_past_a_breach() {
    // In the burst that breaks the record, and in those after it.
    feed_differs(|record, control, data| {
        let before = *record;
        let refusal = linked::monitor_feed(record, control, data);
        if refusal == 0 && before.verdict == CLEAN && record.verdict == BROKEN {
            record.clears = before.clears + clears(control);
        }
        refusal
    });
    feed_differs(|record, control, data| {
        let was = record.verdict;
        let refusal = linked::monitor_feed(record, control, data);
        if refusal == 0 && was == BROKEN {
            record.clears += clears(control);
        }
        refusal
    });
}

#[test]
fn clears_forgotten() {
    // At a breach, and at a cut.
    feed_differs(|record, control, data| {
        let refusal = linked::monitor_feed(record, control, data);
        if record.verdict == BROKEN {
            record.clears = 0;
        }
        refusal
    });
    feed_differs(|record, control, data| {
        record.clears = 0;
        linked::monitor_feed(record, control, data)
    });
}

#[test]
fn other_bits_reserved_in_a_burst() {
    feed_differs(|record, control, data| {
        let before = *record;
        let refusal = linked::monitor_feed(record, control, data);
        if refusal == 0 && clears(control) > 0 {
            *record = before;
            return 2;
        }
        refusal
    });
    feed_differs(|record, control, data| {
        let legal: Vec<u8> = control.iter().map(|c| c & !8).collect();
        linked::monitor_feed(record, &legal, data)
    });
}

#[test]
fn a_damaged_record_accepted() {
    let wrong: [fn(&mut Monitor); 6] = [
        |record| record.payload.strb &= 15,
        |record| record.due %= 65_536,
        |record| record.handshakes = record.handshakes.min(record.cycles),
        |record| record.clears = record.clears.min(record.cycles),
        // One clear more than its cycles have room for.
        |record| {
            let less = Monitor {
                clears: record.clears.saturating_sub(1),
                ..*record
            };
            if !models::monitor::legal(record) && models::monitor::legal(&less) {
                *record = less;
            }
        },
        // Where the sum of the counts, in 32 bits, would fit.
        |record| {
            if record.handshakes.checked_add(record.clears).is_none() {
                record.clears = 0;
            }
        },
    ];
    for mend in wrong {
        differs(|random| {
            monitor::compare_damaged(random, |record, control, data| {
                mend(record);
                linked::monitor_feed(record, control, data)
            })
        });
    }
}

/// A ground for refusal that is tried before all others.
type Ground = fn(&Monitor, &[u8]) -> Option<u8>;

#[test]
fn refusals_in_another_order() {
    let wrong: [Ground; 3] = [
        |_, control| control.iter().any(|c| c & 8 != 0).then_some(2),
        |record, control| (control.len() > (u32::MAX - record.cycles) as usize).then_some(3),
        |record, _| (!models::monitor::legal(record)).then_some(6),
    ];
    for first in wrong {
        differs(|random| {
            monitor::compare_damaged(random, |record, control, data| {
                let refusal = first(record, control);
                refusal.unwrap_or_else(|| linked::monitor_feed(record, control, data))
            })
        });
    }
}

/// A wrong merge: what was asked, and what it answers in place of the right answer.
type WrongMerge = fn(u8, [Offer; MAX_LANES], bool, Merged) -> Merged;

#[test]
fn a_wrong_merge() {
    let wrong: [WrongMerge; 9] = [
        // Valid when any input is.
        |lanes, inputs, ready, right| match inputs[..usize::from(lanes).min(4)]
            .iter()
            .any(|input| input.valid)
        {
            true => linked::merge(
                lanes,
                inputs.map(|input| Offer {
                    valid: true,
                    ..input
                }),
                ready,
            ),
            false => right,
        },
        // An input gets ready whatever the others show, as the manual has it.
        |lanes, _, ready, right| Merged {
            readies: std::array::from_fn(|i| ready && right.refusal == 0 && i < lanes as usize),
            ..right
        },
        // An input gets ready when it is valid itself.
        |lanes, inputs, ready, right| Merged {
            readies: std::array::from_fn(|i| {
                ready && right.refusal == 0 && i < lanes as usize && inputs[i].valid
            }),
            ..right
        },
        // Lanes 0 and 1 are exchanged.
        |lanes, mut inputs, ready, _| {
            inputs.swap(0, 1);
            let mut merged = linked::merge(lanes, inputs, ready);
            merged.readies.swap(0, 1);
            merged
        },
        // The strobes of lane 0 are highest.
        |_, _, _, mut right| {
            right.wide.strb = right.wide.strb.reverse_bits();
            right
        },
        // Data past the lanes is shown.
        |_, inputs, _, mut right| {
            if right.valid {
                right.wide.data = inputs.map(|input| input.payload.data);
            }
            right
        },
        // A payload is shown with valid 0.
        |lanes, inputs, ready, right| Merged {
            wide: linked::merge(
                lanes,
                inputs.map(|input| Offer {
                    valid: true,
                    ..input
                }),
                ready,
            )
            .wide,
            ..right
        },
        // Three lanes are accepted.
        |lanes, inputs, ready, right| match lanes {
            3 => linked::merge(4, inputs, ready),
            _ => right,
        },
        // A strobe is refused before the number of lanes is.
        |lanes, inputs, _, mut right| {
            if right.refusal == 5
                && inputs[..usize::from(lanes).min(4)]
                    .iter()
                    .any(|input| input.payload.strb > 15)
            {
                right.refusal = 2;
            }
            right
        },
    ];
    for wrong in wrong {
        differs(|random| {
            lanes::compare_merge(random, |lanes, inputs, ready| {
                wrong(lanes, inputs, ready, linked::merge(lanes, inputs, ready))
            })
        });
    }
}

/// A wrong split: what was asked, and what it answers in place of the right answer.
type WrongSplit = fn(u8, bool, Wide, [bool; MAX_LANES], Split) -> Split;

#[test]
fn a_wrong_split() {
    let wrong: [WrongSplit; 7] = [
        // A branch is offered its lane whatever the readies are, as the manual has it.
        |lanes, valid, wide, _, right| Split {
            branches: linked::split(lanes, valid, wide, [true; MAX_LANES]).branches,
            ..right
        },
        // A branch is offered its lane whatever its neighbours' readies are.
        |lanes, valid, wide, readies, right| {
            let all = linked::split(lanes, valid, wide, [true; MAX_LANES]).branches;
            let none = models::lanes::NO_OFFER;
            Split {
                branches: std::array::from_fn(|i| if readies[i] { all[i] } else { none }),
                ..right
            }
        },
        // The source gets ready only when it is valid.
        |_, valid, _, _, right| Split {
            ready: right.ready && valid,
            ..right
        },
        // Branches past the lanes are read.
        |lanes, valid, wide, readies, right| match readies.contains(&false) {
            true => linked::split(lanes, valid, wide, [false; MAX_LANES]),
            false => right,
        },
        // A wide strobe past the lanes is accepted.
        |lanes, valid, mut wide, readies, _| {
            if lanes == 2 {
                wide.strb %= 256;
            }
            linked::split(lanes, valid, wide, readies)
        },
        // A wide strobe past the lanes is refused only when valid is 1.
        |lanes, valid, mut wide, readies, right| {
            if valid || right.refusal != 2 {
                return right;
            }
            wide.strb = 0;
            linked::split(lanes, valid, wide, readies)
        },
        // Three lanes are accepted.
        |lanes, valid, wide, readies, right| match lanes {
            3 => linked::split(4, valid, wide, readies),
            _ => right,
        },
    ];
    for wrong in wrong {
        differs(|random| {
            lanes::compare_split(random, |lanes, valid, wide, readies| {
                wrong(
                    lanes,
                    valid,
                    wide,
                    readies,
                    linked::split(lanes, valid, wide, readies),
                )
            })
        });
    }
}
