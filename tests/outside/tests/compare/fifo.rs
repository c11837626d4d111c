use outside::answers::{Fifo, New, Payload, Place, Stepped, MAX_DEPTH};
use outside::models::fifo::{self, capacity, legal_place, Shown, Stage, NOTHING};
use outside::random::{agree, agree_in_all, same, Compared, Random};
use outside::{linked, states};
use std::collections::BTreeSet;

/// Every legal place: plain ones from depth 2 on, early-stall ones from depth 4 on.
pub fn legal_places() -> impl Iterator<Item = Place> {
    let plain = (2..=MAX_DEPTH).step_by(2).map(Place::plain);
    plain.chain((4..=MAX_DEPTH).step_by(2).map(Place::early_stall))
}

pub fn kind_of(place: Place) -> &'static str {
    if place.early_stall {
        "early-stall"
    } else {
        "plain"
    }
}

/// What is reached by FIFOs of both kinds, named with the kind.
pub fn of_both_kinds(named: impl Fn(&str) -> Vec<String>) -> Vec<String> {
    ["plain", "early-stall"].map(named).concat()
}

/// The kinds of an answer on a place: its refusal, and with it the place where its depth is at an edge.
pub fn at_place(refusal: u8, place: Place) -> BTreeSet<String> {
    let mut kinds = BTreeSet::from([refusal.to_string()]);
    if [0, 2, 4, 16, 17, 18, 64, 65, 66].contains(&place.depth) {
        let kind = kind_of(place);
        kinds.insert(format!("{refusal}, {kind} of depth {}", place.depth));
    }
    kinds
}

/// The kinds of answers with this refusal on places of both kinds and of these depths.
fn at_depths(refusal: u8, depths: &[usize]) -> Vec<String> {
    let of_depth = |kind: &str, depth| format!("{refusal}, {kind} of depth {depth}");
    of_both_kinds(|kind| depths.iter().map(|depth| of_depth(kind, depth)).collect())
}

/// The places that new FIFOs should reach, accepted and refused.
pub fn new_places() -> Vec<String> {
    let numbers = ["0", "4", "0, plain of depth 2", "4, early-stall of depth 2"];
    let accepted = at_depths(0, &[4, 16, 18, 64]);
    let refused = at_depths(4, &[0, 17, 65, 66]);
    [numbers.map(String::from).to_vec(), accepted, refused].concat()
}

/// Which edge of its form a FIFO is at that is refused with 6, or not at all. Where an early-stall one is refused for a
/// depth of 2, or since it holds its depth, nothing else is wrong with it.
pub fn at_edge(refusal: u8, fifo: &Fifo) -> Option<String> {
    let Fifo {
        place,
        count,
        oldest,
        ..
    } = *fifo;
    let (kind, depth) = (kind_of(place), place.depth);
    let plain = Fifo {
        place: Place::plain(depth),
        ..*fifo
    };
    let edge = match refusal {
        6 if Stage::of(&plain).is_some() => match (depth, count) {
            (2, 0) => "of depth 2, empty",
            (2, _) => "of depth 2, not empty",
            _ => "held its depth",
        },
        _ if !legal_place(place) => return None,
        6 if oldest < depth && count > depth => "held more than its depth",
        6 if oldest < depth && count <= capacity(place) => "held an illegal strobe",
        6 if oldest == depth && count <= capacity(place) => "position at the depth",
        0 if oldest == depth - 1 => "position at the last slot",
        0 if count == capacity(place) => "held its capacity",
        _ => return None,
    };
    Some(format!("{refusal}, {kind}, {edge}"))
}

/// The edges of their form that FIFOs should reach.
pub fn edges() -> Vec<String> {
    let mut edges = of_both_kinds(|kind| {
        vec![
            format!("0, {kind}, held its capacity"),
            format!("0, {kind}, position at the last slot"),
            format!("6, {kind}, held an illegal strobe"),
            format!("6, {kind}, held more than its depth"),
            format!("6, {kind}, position at the depth"),
        ]
    });
    for edge in [
        "held its depth",
        "of depth 2, empty",
        "of depth 2, not empty",
    ] {
        edges.push(format!("6, early-stall, {edge}"));
    }
    edges
}

/// What a step answers, beside the state that it hands back.
pub fn shown<Kept>(stepped: &Stepped<Kept>) -> Shown {
    Shown {
        refusal: stepped.refusal,
        ready: stepped.ready,
        valid: stepped.valid,
        payload: stepped.payload,
    }
}

/// The arguments of a step: the offer's valid and payload, the sink's ready, and clear.
pub fn arguments(random: &Random) -> (bool, Payload, bool, bool) {
    let clears = random.once_in(16);
    (
        random.coin(),
        states::payload(random),
        random.coin(),
        clears,
    )
}

/// What a step that is not refused reaches: ready or not near the depth, clears, and the ring of depth 64.
fn at_step(kept: &Fifo, valid: bool, clear: bool, ready: bool, next: &Fifo) -> Vec<String> {
    let Place { depth, .. } = kept.place;
    let mut reached = Vec::new();
    if clear {
        let held = if kept.count > 0 {
            "held"
        } else {
            "nothing held"
        };
        reached.push(format!("cleared, {held}"));
    } else if kept.count + 2 >= depth {
        let ready = if ready { "ready" } else { "not ready" };
        reached.push(match depth - kept.count {
            0 => format!("{ready}, depth held"),
            under => format!("{ready}, depth - {under} held"),
        });
    }
    if depth == MAX_DEPTH {
        if next.oldest < kept.oldest {
            reached.push("a ring of depth 64 wrapped".to_string());
        }
        if valid && !ready && !clear {
            reached.push("an offer to a full FIFO of depth 64".to_string());
        }
    }
    let kind = kind_of(kept.place);
    reached
        .iter()
        .map(|what| format!("{kind}, {what}"))
        .collect()
}

/// Some steps in a row, from a FIFO of any form on, each given what the one before handed back.
pub fn compare(
    random: &Random,
    call: impl Fn(Fifo, bool, Payload, bool, bool) -> Stepped<Fifo>,
) -> Result<BTreeSet<String>, String> {
    let mut kept = states::any_fifo(random);
    let mut kinds = BTreeSet::new();
    for _ in 0..1 + random.below(60) {
        let (valid, payload, sink, clear) = arguments(random);
        let stepped = call(kept, valid, payload, sink, clear);
        let (answer, next) = fifo::step(Stage::of(&kept), valid, payload, sink, clear);
        let input = (kept, valid, payload, sink, clear);
        same("shown", &(shown(&stepped), input), &(answer, input))?;
        match next {
            Some(next) => {
                let got = Stage::of(&stepped.next);
                same("next", &(got, input), &(Some(next), input))?
            }
            None => same("refused", &stepped.next, &kept)?,
        }
        kinds.extend(at_place(answer.refusal, kept.place));
        kinds.extend(at_edge(answer.refusal, &kept));
        if answer.refusal == 0 {
            kinds.extend(at_step(&kept, valid, clear, answer.ready, &stepped.next));
        }
        kept = stepped.next;
    }
    Ok(kinds)
}

/// A step of a FIFO of every legal place, position and count, as it is kept, with each offer and sink.
pub fn compare_places(
    random: &Random,
    call: impl Fn(Fifo, bool, Payload, bool, bool) -> Stepped<Fifo>,
) -> Compared {
    for place in legal_places() {
        let counts = 0..=capacity(place);
        for (oldest, count) in (0..place.depth).flat_map(|o| counts.clone().map(move |c| (o, c))) {
            for (valid, sink) in [(false, false), (false, true), (true, false), (true, true)] {
                let kept = states::filled_fifo(random, place, oldest, count);
                let payload = states::legal_payload(random);
                let next = call(kept, valid, payload, sink, false).next;
                let want = fifo::kept_after(&kept, valid.then_some(payload), sink);
                let input = (kept, valid, payload, sink);
                same("kept", &(next, input), &(want, input))?;
            }
        }
    }
    Ok("all".to_string())
}

pub fn compare_is_well(
    random: &Random,
    call: impl Fn(Fifo) -> bool,
) -> Result<BTreeSet<String>, String> {
    let fifo = states::any_fifo(random);
    let well = Stage::of(&fifo).is_some();
    same("well", &(call(fifo), fifo), &(well, fifo))?;
    let mut kinds = BTreeSet::from([well.to_string()]);
    kinds.extend(at_edge(if well { 0 } else { 6 }, &fifo));
    Ok(kinds)
}

pub fn compare_new(
    random: &Random,
    call: impl Fn(Place) -> New<Fifo>,
) -> Result<BTreeSet<String>, String> {
    let place = states::any_place(random);
    let made = call(place);
    let (refusal, stage) = fifo::new_fifo(place);
    let value = (made.refusal, Stage::of(&made.kept), place);
    same("new", &value, &(refusal, Some(stage), place))?;
    Ok(at_place(refusal, place))
}

#[test]
fn fifo_places() {
    agree(20, &["all"], |random| {
        compare_places(random, linked::fifo_step)
    });
}

#[test]
fn fifo_step() {
    let numbers = [
        "0",
        "0, plain of depth 2",
        "2",
        "2, plain of depth 2",
        "6",
        "plain, ready, depth - 2 held",
        "plain, ready, depth - 1 held",
        "plain, not ready, depth held",
        "early-stall, ready, depth - 2 held",
        "early-stall, not ready, depth - 1 held",
    ];
    let steps = of_both_kinds(|kind| {
        vec![
            format!("{kind}, cleared, held"),
            format!("{kind}, cleared, nothing held"),
            format!("{kind}, a ring of depth 64 wrapped"),
            format!("{kind}, an offer to a full FIFO of depth 64"),
        ]
    });
    let kinds = [
        numbers.map(String::from).to_vec(),
        at_depths(0, &[4, 16, 18, 64]),
        at_depths(2, &[4, 16, 18, 64]),
        at_depths(6, &[0, 2, 4, 16, 17, 18, 64, 65, 66]),
        edges(),
        steps,
    ];
    agree_in_all(60_000, &kinds.concat(), |random| {
        compare(random, linked::fifo_step)
    });
}

#[test]
fn fifo_is_well() {
    let kinds = [vec!["false".to_string(), "true".to_string()], edges()];
    agree_in_all(60_000, &kinds.concat(), |random| {
        compare_is_well(random, linked::fifo_is_well)
    });
}

#[test]
fn fifo_new() {
    agree_in_all(5_000, &new_places(), |random| {
        compare_new(random, linked::fifo_new)
    });
}

/// The refusal of a step on a FIFO that is handed in, and whether it is well-formed.
fn handed_in(fifo: Fifo) -> (u8, bool) {
    let stepped = linked::fifo_step(fifo, true, NOTHING, true, false);
    (stepped.refusal, linked::fifo_is_well(fifo))
}

/// A new FIFO of each of these places, and one that is handed in with it. A refused one is plain, of depth 2 and empty.
#[test]
fn edges_of_depth() {
    let numbers = |place| {
        let made = linked::fifo_new(place);
        let mut fifo = linked::fifo_new(Place::plain(2)).kept;
        fifo.place = place;
        let new = (made.refusal, made.kept.place, made.kept.count);
        (new, handed_in(fifo))
    };
    for place in legal_places() {
        assert_eq!(numbers(place), ((0, place, 0), (0, true)));
    }
    let refused = ((4, Place::plain(2), 0), (6, false));
    for depth in [0, 1, 3, 17, 63, 65, 66, usize::MAX] {
        for place in [Place::plain(depth), Place::early_stall(depth)] {
            assert_eq!(numbers(place), refused, "{place:?}");
        }
    }
    assert_eq!(numbers(Place::early_stall(2)), refused);
}

/// FIFOs of depth 64 that are handed in with these positions and counts.
#[test]
fn edges_of_a_deep_ring() {
    let refusal = |place, (oldest, count)| {
        let mut fifo = linked::fifo_new(place).kept;
        (fifo.oldest, fifo.count) = (oldest, count);
        linked::fifo_step(fifo, true, NOTHING, true, false).refusal
    };
    for (place, most) in [(Place::plain(64), 64), (Place::early_stall(64), 63)] {
        for at in [(0, 0), (0, 17), (0, most), (16, most), (63, 0), (63, most)] {
            assert_eq!(refusal(place, at), 0, "{place:?}, {at:?}");
        }
        for at in [(0, most + 1), (63, most + 1), (64, 0), (64, most), (65, 1)] {
            assert_eq!(refusal(place, at), 6, "{place:?}, {at:?}");
        }
    }
}

/// An early-stall FIFO of depth 2 is refused when it is handed in, whatever it holds; a plain one is not.
#[test]
fn early_stall_of_depth_2() {
    let random = &Random::new(0);
    for (oldest, count) in [(0, 0), (0, 1), (0, 2), (1, 0), (1, 1), (1, 2)] {
        let plain = states::filled_fifo(random, Place::plain(2), oldest, count);
        let mut early_stall = plain;
        early_stall.place.early_stall = true;
        assert_eq!(handed_in(plain), (0, true), "{oldest}, {count}");
        assert_eq!(handed_in(early_stall), (6, false), "{oldest}, {count}");
    }
}

/// An early-stall FIFO that holds its depth is refused, from every position on. One that holds one payload less is not,
/// and it is not ready.
#[test]
fn early_stall_that_holds_its_depth() {
    let random = &Random::new(0);
    for place in legal_places().filter(|place| place.early_stall) {
        for oldest in 0..place.depth {
            let over = states::filled_fifo(random, place, oldest, place.depth);
            assert_eq!(handed_in(over), (6, false), "{place:?}, {oldest}");
            let full = states::filled_fifo(random, place, oldest, place.depth - 1);
            assert_eq!(handed_in(full), (0, true), "{place:?}, {oldest}");
            let stepped = linked::fifo_step(full, true, NOTHING, false, false);
            assert_eq!(
                (stepped.refusal, stepped.ready, stepped.valid),
                (0, false, true)
            );
            assert_eq!(stepped.next, full);
        }
    }
}

/// A FIFO of every place accepts as many payloads as its capacity, depth or depth - 1, and gives them back in order. A
/// full one accepts nothing in the cycle in which it pops, and is ready in the next.
#[test]
fn fills_to_its_capacity() {
    let random = &Random::new(0);
    for place in legal_places() {
        let most = if place.early_stall {
            place.depth - 1
        } else {
            place.depth
        };
        let mut fifo = linked::fifo_new(place).kept;
        let mut accepted = Vec::new();
        for _ in 0..place.depth + 3 {
            let payload = states::legal_payload(random);
            let stepped = linked::fifo_step(fifo, true, payload, false, false);
            accepted.extend(stepped.ready.then_some(payload));
            fifo = stepped.next;
        }
        assert_eq!((accepted.len(), fifo.count), (most, most), "{place:?}");
        for (i, &payload) in accepted.iter().enumerate() {
            let stepped = linked::fifo_step(fifo, i == 0, NOTHING, true, false);
            let shown = (stepped.ready, stepped.valid, stepped.payload);
            assert_eq!(shown, (i > 0, true, payload), "{place:?}");
            fifo = stepped.next;
        }
        assert_eq!((fifo.place, fifo.count), (place, 0));
    }
}

/// No step changes the place of a FIFO: one that accepts or pops, an idle one, a clear, or a refused one.
#[test]
fn the_kind_survives() {
    let random = &Random::new(0);
    let illegal = Payload { data: 0, strb: 16 };
    for place in legal_places() {
        for count in [0, 1, capacity(place)] {
            let kept = states::filled_fifo(random, place, place.depth - 1, count);
            for (valid, sink) in [(false, false), (false, true), (true, false), (true, true)] {
                for (payload, clear) in [(NOTHING, false), (NOTHING, true), (illegal, false)] {
                    let stepped = linked::fifo_step(kept, valid, payload, sink, clear);
                    assert_eq!(stepped.next.place, place);
                }
            }
        }
    }
}
