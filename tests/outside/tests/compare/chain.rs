use crate::fifo::{
    arguments, at_edge, at_place, edges, kind_of, legal_places, new_places, of_both_kinds, shown,
};
use outside::answers::{Chain, ChainRun, New, Payload, Place, Stepped, MAX_DEPTH, MAX_FIFOS};
use outside::lent::{room, Lent};
use outside::models::chain::{self, Line, Offered};
use outside::models::fifo::{capacity, legal_place, Stage, NOTHING};
use outside::random::{agree_in_all, same, Random};
use outside::{linked, states, traces};
use std::collections::BTreeSet;

/// What the random runs should reach with clears in the offer's trace.
const CLEARS: [&str; 13] = [
    "clear, nothing held",
    "clear, payloads dropped",
    "clear, payloads dropped in every FIFO",
    "clear, payloads dropped that the sink was ready for",
    "clear, a full line",
    "clear, sink not ready",
    "clear, sink ready",
    "clear, an offer to a ready mouth",
    "clear, no offer",
    "clear in the first cycle",
    "clear in the last cycle",
    "clear in every cycle",
    "delivered after a clear",
];

/// What the cycles of random steps and runs should reach in mixed chains.
const MIXED: [&str; 8] = [
    "mixed, early-stall mouth ready, depth - 2 held",
    "mixed, early-stall mouth not ready, depth - 1 held",
    "mixed, plain mouth ready, depth - 1 held",
    "mixed, plain mouth not ready, depth held",
    "mixed, handed on to an early-stall FIFO, depth - 2 held",
    "mixed, held back by an early-stall FIFO, depth - 1 held",
    "mixed, handed on to a plain FIFO, depth - 1 held",
    "mixed, held back by a plain FIFO, depth held",
];

/// What the random steps and runs should reach at the limits of a chain and of its FIFOs.
fn limits() -> Vec<String> {
    let numbers = [
        "0, 16 FIFOs",
        "0, all early-stall",
        "0, all plain",
        "0, mixed",
        "6, 17 FIFOs",
        "6, 18 FIFOs",
    ];
    let depths = of_both_kinds(|kind| {
        vec![
            format!("0, {kind} of depth 64"),
            format!("0, {kind} of depth 64 wrapped"),
            format!("6, {kind} of depth 0"),
            format!("6, {kind} of depth 17"),
            format!("6, {kind} of depth 65"),
            format!("6, {kind} of depth 66"),
        ]
    });
    [numbers.map(String::from).to_vec(), depths, edges()].concat()
}

/// The chain that a call handed back, and the number of its refusal.
type Back = Result<(Chain, u8), String>;

/// A chain handed back: of the value that the model gives, or refused exactly as given.
fn handed_back(back: Chain, given: &Chain, refusal: u8, want: Option<Line>) -> Back {
    match want {
        Some(line) => same("next", &(Line::of(&back), given), &(Some(line), given))?,
        None => same("refused", &back, given)?,
    }
    Ok((back, refusal))
}

pub fn compare_step(
    random: &Random,
    kept: Chain,
    call: impl Fn(Chain, bool, Payload, bool, bool) -> Stepped<Chain>,
) -> Back {
    let (valid, payload, sink, clear) = arguments(random);
    let stepped = call(kept, valid, payload, sink, clear);
    let (answer, next) = chain::step(Line::of(&kept), valid, payload, sink, clear);
    let input = (kept, valid, payload, sink, clear);
    same("shown", &(shown(&stepped), input), &(answer, input))?;
    handed_back(stepped.next, &kept, answer.refusal, next)
}

/// An offer's trace, whose ready bits are anything, with clears, and a sink, mostly legal and of one length.
pub fn offered(random: &Random) -> Offered {
    let n = traces::cycles(random);
    let (valids, sinks) = (traces::bias(random), traces::bias(random));
    let mut control = random.bytes(n);
    for byte in &mut control {
        *byte = *byte & 0xf2 | u8::from(traces::drawn(random, valids));
    }
    traces::set_clears(random, &mut control);
    if n > 0 && random.once_in(12) {
        control[random.below(n)] |= random.pick(&[8, 12]);
    }
    let mut data = random.words(n);
    let mut sink: Vec<u8> = (0..n)
        .map(|_| u8::from(traces::drawn(random, sinks)))
        .collect();
    match random.below(40) {
        0 => data.push(0),
        1 => sink.push(2),
        2 => drop(sink.pop()),
        3 | 4 if n > 0 => sink[random.below(n)] = random.pick(&[1, 2, 3, 255]),
        _ => {}
    }
    Offered {
        control,
        data,
        sink,
    }
}

pub fn compare_run(
    random: &Random,
    kept: Chain,
    offered: &Offered,
    call: impl Fn(Chain, &Offered, &mut [u8], &mut [u32]) -> ChainRun,
) -> Back {
    let before = offered.clone();
    let n = offered.control.len();
    let mut out = (
        Lent::bytes(random, room(random, n)),
        Lent::words(random, random.pick(&[n, room(random, n)])),
    );
    let mut want = out.clone();
    let ran = call(kept, offered, out.0.lend(), out.1.lend());
    let (refusal, next) = chain::run(Line::of(&kept), &before, want.0.lend(), want.1.lend());
    let (got, want) = ((ran.refusal, out), (refusal, want));
    same("run", &(got, kept, &before), &(want, kept, &before))?;
    same("inputs", offered, &before)?;
    handed_back(ran.next, &kept, refusal, next)
}

/// The kinds of an answer on a chain that was given, with what was handed back: its refusal, and which limits are reached.
fn at_limits(given: &Chain, (end, refusal): &(Chain, u8)) -> BTreeSet<String> {
    let used = given.fifos.get(..given.count).unwrap_or(&[]);
    let mut kinds = BTreeSet::from([refusal.to_string()]);
    if matches!((refusal, given.count), (0, 16) | (6, 17 | 18)) {
        kinds.insert(format!("{refusal}, {} FIFOs", given.count));
    }
    if *refusal == 0 && used.len() > 1 {
        kinds.insert(format!("0, {}", mix(used.iter().map(|fifo| fifo.place))));
    }
    for (fifo, after) in used.iter().zip(&end.fifos) {
        // In a chain that is refused with 6, those that it is refused for.
        if *refusal != if Stage::of(fifo).is_some() { 0 } else { 6 } {
            continue;
        }
        kinds.extend(at_edge(*refusal, fifo));
        let place = format!(
            "{refusal}, {} of depth {}",
            kind_of(fifo.place),
            fifo.place.depth
        );
        match (refusal, fifo.place.depth) {
            (0, 64) if after.oldest < fifo.oldest => kinds.insert(format!("{place} wrapped")),
            (0, 64) | (6, 0 | 17 | 65 | 66) => kinds.insert(place),
            _ => false,
        };
    }
    kinds
}

/// The kinds of a chain's FIFOs.
pub fn mix(places: impl Iterator<Item = Place>) -> &'static str {
    let kinds: BTreeSet<bool> = places.map(|place| place.early_stall).collect();
    match (kinds.contains(&false), kinds.contains(&true)) {
        (true, true) => "mixed",
        (false, true) => "all early-stall",
        _ => "all plain",
    }
}

/// What a cycle of a mixed line meets: whether its mouth is ready, and whether payloads are handed on, where a FIFO is
/// full or lacks one payload.
fn at_cycle(line: &Line) -> Vec<&'static str> {
    let Line(stages) = line;
    if mix(stages.iter().map(|stage| stage.place)) != "mixed" {
        return Vec::new();
    }
    let lacks = |stage: &Stage| {
        (
            stage.place.early_stall,
            stage.place.depth - stage.held.len(),
        )
    };
    let mouth = match lacks(&stages[0]) {
        (true, 2) => Some("mixed, early-stall mouth ready, depth - 2 held"),
        (true, 1) => Some("mixed, early-stall mouth not ready, depth - 1 held"),
        (false, 1) => Some("mixed, plain mouth ready, depth - 1 held"),
        (false, 0) => Some("mixed, plain mouth not ready, depth held"),
        _ => None,
    };
    let shown = stages.windows(2).filter(|pair| pair[0].shown().is_some());
    let handed_on = shown.filter_map(|pair| match lacks(&pair[1]) {
        (true, 2) => Some("mixed, handed on to an early-stall FIFO, depth - 2 held"),
        (true, 1) => Some("mixed, held back by an early-stall FIFO, depth - 1 held"),
        (false, 1) => Some("mixed, handed on to a plain FIFO, depth - 1 held"),
        (false, 0) => Some("mixed, held back by a plain FIFO, depth held"),
        _ => None,
    });
    mouth.into_iter().chain(handed_on).collect()
}

#[test]
fn chain_step() {
    let numbers = [&["0", "2", "6"], &MIXED[..]].concat();
    let kinds = [numbers.into_iter().map(String::from).collect(), limits()].concat();
    agree_in_all(15_000, &kinds, |random| {
        let given = states::any_chain(random);
        let mut last = (given, 0);
        let mut cycles = BTreeSet::new();
        for _ in 0..1 + random.below(80) {
            let line = Line::of(&last.0);
            last = compare_step(random, last.0, linked::chain_step)?;
            if last.1 == 0 {
                cycles.extend(line.iter().flat_map(at_cycle));
            }
        }
        let mut kinds = at_limits(&given, &last);
        kinds.extend(cycles.into_iter().map(String::from));
        Ok(kinds)
    });
}

/// What a cycle with clear is met by: the line at its start, the offer's control byte and the sink's ready.
fn at_clear(line: &Line, control: u8, sink: u8) -> Vec<&'static str> {
    let held: Vec<usize> = line.0.iter().map(|stage| stage.held.len()).collect();
    let mut kinds = vec![match sink {
        0 => "clear, sink not ready",
        _ => "clear, sink ready",
    }];
    if held.iter().all(|&count| count == 0) {
        kinds.push("clear, nothing held");
    } else {
        kinds.push("clear, payloads dropped");
    }
    if held.iter().all(|&count| count > 0) {
        kinds.push("clear, payloads dropped in every FIFO");
    }
    if held.last() > Some(&0) && sink == 1 {
        kinds.push("clear, payloads dropped that the sink was ready for");
    }
    if line.0.iter().all(|stage| !stage.ready()) {
        kinds.push("clear, a full line");
    }
    if control & 1 == 0 {
        kinds.push("clear, no offer");
    } else if line.0[0].ready() {
        kinds.push("clear, an offer to a ready mouth");
    }
    kinds
}

/// What is reached by the cycles of a run that is not refused, step by step in the model. The run's end is that of its
/// steps.
fn cycles(kept: &Chain, offered: &Offered, end: &Chain) -> Result<BTreeSet<String>, String> {
    let (mut line, mut kinds) = (Line::of(kept).unwrap(), BTreeSet::new());
    let mut past_one = false;
    let n = offered.control.len();
    let cleared = |c: usize| offered.control[c] & 4 != 0;
    for c in 0..n {
        let (control, sink) = (offered.control[c], offered.sink[c]);
        if cleared(c) {
            kinds.extend(at_clear(&line, control, sink));
            past_one = true;
        } else {
            kinds.extend(at_cycle(&line));
        }
        let payload = Payload {
            data: offered.data[c],
            strb: control >> 4,
        };
        let (shown, next) =
            chain::step(Some(line), control & 1 != 0, payload, sink == 1, cleared(c));
        line = next.unwrap();
        if shown.valid && sink == 1 && past_one {
            kinds.insert("delivered after a clear");
        }
    }
    same("steps", &Line::of(end), &Some(line))?;
    if n > 0 && cleared(0) {
        kinds.insert("clear in the first cycle");
    }
    if n > 0 && cleared(n - 1) {
        kinds.insert("clear in the last cycle");
    }
    if n > 1 && (0..n).all(cleared) {
        kinds.insert("clear in every cycle");
    }
    Ok(kinds.into_iter().map(String::from).collect())
}

#[test]
fn chain_run() {
    let refusals = ["0", "1", "2", "2 in a clear", "3", "6", "7"];
    let numbers = [&refusals, &CLEARS[..], &MIXED].concat();
    let kinds = [numbers.into_iter().map(String::from).collect(), limits()].concat();
    agree_in_all(25_000, &kinds, |random| {
        let given = states::any_chain(random);
        let offered = offered(random);
        let (end, refusal) = compare_run(random, given, &offered, linked::chain_run)?;
        let mut kinds = at_limits(&given, &(end, refusal));
        if refusal == 2 && offered.control.iter().any(|c| c & 12 == 12) {
            kinds.insert("2 in a clear".to_string());
        }
        if refusal == 0 && offered.control.len() < 300 {
            kinds.extend(cycles(&given, &offered, &end)?);
        }
        Ok(kinds)
    });
}

/// A full line and one cycle with clear, with every offer and sink: the outlet shows clear, the sink's ready and nothing else,
/// and the line is empty.
#[test]
fn one_clear() {
    let random = &Random::new(0);
    let places = [
        Place::plain(2),
        Place::early_stall(4),
        Place::plain(MAX_DEPTH),
        Place::early_stall(MAX_DEPTH),
    ];
    for (control, sink) in (0..=255u8).flat_map(|control| [(control, 0), (control, 1)]) {
        let mut kept = linked::chain_new(&places).kept;
        for fifo in &mut kept.fifos[..places.len()] {
            *fifo = states::filled_fifo(random, fifo.place, 1, capacity(fifo.place));
        }
        let offered = Offered {
            control: vec![control & 0xf7 | 4],
            data: vec![random.word()],
            sink: vec![sink],
        };
        let (mut out_control, mut out_data) = ([0xff], [1]);
        let ran = linked::chain_run(kept, &offered, &mut out_control, &mut out_data);
        assert_eq!(ran.refusal, 0);
        assert_eq!((out_control, out_data), ([4 | sink << 1], [0]));
        assert_eq!(Line::of(&ran.next), Some(Line::empty(&places)));
    }
}

/// Steps and runs in any order on one new chain, each given what the one before handed back: none is refused with 6.
#[test]
fn chain_session() {
    let kinds = ["0", "1", "2", "3", "7", "a payload in the last of 16"];
    agree_in_all(4_000, &kinds, |random| {
        let places = states::legal_places(random, 1 + random.below(MAX_FIFOS));
        let made = linked::chain_new(&places);
        let (mut kept, mut refusal) = (made.kept, made.refusal);
        let mut kinds = BTreeSet::from([refusal.to_string()]);
        for _ in 0..random.below(12) {
            (kept, refusal) = if random.coin() {
                compare_run(random, kept, &offered(random), linked::chain_run)?
            } else {
                compare_step(random, kept, linked::chain_step)?
            };
            kinds.insert(refusal.to_string());
        }
        if kept.count == 16 && kept.fifos[15].count > 0 {
            kinds.insert("a payload in the last of 16".to_string());
        }
        Ok(kinds)
    });
}

/// The places of a new chain: all of them legal, all but one, or as they come.
fn places(random: &Random) -> Vec<Place> {
    let count = match random.below(3) {
        0 => random.below(3),
        1 => random.below(MAX_FIFOS + 5),
        _ => random.pick(&[MAX_FIFOS - 1, MAX_FIFOS, MAX_FIFOS, MAX_FIFOS + 1]),
    };
    let mut places = states::legal_places(random, count);
    match random.below(4) {
        0 => places.fill_with(|| states::any_place(random)),
        1 if count > 0 => places[random.below(count)] = states::any_place(random),
        _ => {}
    }
    places
}

pub fn compare_new(
    random: &Random,
    call: impl Fn(&[Place]) -> New<Chain>,
) -> Result<BTreeSet<String>, String> {
    let places = places(random);
    let before = places.clone();
    let made = call(&places);
    let (refusal, line) = chain::new_chain(&before);
    let value = (made.refusal, Line::of(&made.kept), &places);
    same("new", &value, &(refusal, Some(line), &before))?;
    let mut kinds = BTreeSet::from([refusal.to_string()]);
    let (count, all) = (places.len(), places.iter().copied());
    let illegal: Vec<Place> = all.clone().filter(|&place| !legal_place(place)).collect();
    if (15..=18).contains(&count) {
        let legal = if illegal.is_empty() {
            "all legal"
        } else {
            "not all legal"
        };
        kinds.insert(format!("{refusal}, {count} FIFOs, {legal}"));
    }
    if refusal == 0 && count > 1 {
        kinds.insert(format!("0, {}", mix(all.clone())));
    }
    match refusal {
        0 => kinds.extend(all.flat_map(|place| at_place(0, place))),
        // Refused for one place alone.
        4 if illegal.len() == 1 => kinds.extend(at_place(4, illegal[0])),
        _ => {}
    }
    Ok(kinds)
}

#[test]
fn chain_new() {
    let numbers = [
        "0, 15 FIFOs, all legal",
        "0, 16 FIFOs, all legal",
        "0, all early-stall",
        "0, all plain",
        "0, mixed",
        "4, 15 FIFOs, not all legal",
        "4, 16 FIFOs, not all legal",
        "5",
        "5, 17 FIFOs, all legal",
        "5, 17 FIFOs, not all legal",
        "5, 18 FIFOs, all legal",
        "5, 18 FIFOs, not all legal",
    ];
    let kinds = [numbers.map(String::from).to_vec(), new_places()].concat();
    agree_in_all(20_000, &kinds, |random| {
        compare_new(random, linked::chain_new)
    });
}

/// The refusals of a step and of a run of one cycle on a chain that is handed in.
fn handed_in(chain: Chain) -> (u8, u8) {
    let offered = Offered {
        control: vec![0xf1],
        data: vec![1],
        sink: vec![1],
    };
    let stepped = linked::chain_step(chain, true, NOTHING, true, false);
    let ran = linked::chain_run(chain, &offered, &mut [0], &mut [0]);
    (stepped.refusal, ran.refusal)
}

/// Whether a new chain is what a refused one should be.
fn refused_new(made: &New<Chain>) -> bool {
    let mouth = made.kept.fifos[0];
    (made.kept.count, mouth.place, mouth.count) == (1, Place::plain(2), 0)
}

/// Places of both kinds and of these depths.
fn both(depths: &[usize]) -> Vec<Place> {
    let both = |&depth| [Place::plain(depth), Place::early_stall(depth)];
    depths.iter().flat_map(both).collect()
}

/// Plain and early-stall FIFOs of one depth in turn.
fn in_turn(depth: usize) -> [Place; MAX_FIFOS] {
    std::array::from_fn(|i| match i % 2 {
        0 => Place::plain(depth),
        _ => Place::early_stall(depth),
    })
}

/// New chains of each of these counts, of legal and of illegal places, and one that is handed in with it. A refused new
/// one is one empty plain FIFO of depth 2.
#[test]
fn edges_of_count() {
    let mut legal = both(&[4, 16, 18, 64]);
    legal.push(Place::plain(2));
    let mut illegal = both(&[0, 3, 17, 65, 66]);
    illegal.push(Place::early_stall(2));
    for (count, new, new_illegal, given) in [
        (0, 5, 5, 6),
        (1, 0, 4, 0),
        (8, 0, 4, 0),
        (9, 0, 4, 0),
        (15, 0, 4, 0),
        (16, 0, 4, 0),
        (17, 5, 5, 6),
        (18, 5, 5, 6),
    ] {
        for (places, refusal) in [(&legal, new), (&illegal, new_illegal)] {
            for &place in places {
                let made = linked::chain_new(&vec![place; count]);
                assert_eq!(made.refusal, refusal, "{count} of {place:?}");
                assert!(refusal == 0 || refused_new(&made), "{count} of {place:?}");
            }
        }
        let mut chain = linked::chain_new(&in_turn(MAX_DEPTH)).kept;
        chain.count = count;
        assert_eq!(handed_in(chain), (given, given), "{count} handed in");
    }
}

/// The refusals of a chain that is handed in, and of the FIFOs before this one alone.
fn with_and_without(chain: Chain, at: usize) -> [(u8, u8); 2] {
    let mut shorter = chain;
    shorter.count = at;
    let unused = if at > 0 { handed_in(shorter) } else { (0, 0) };
    [handed_in(chain), unused]
}

/// One of sixteen FIFOs, wherever it stands, is of each of these places: in a new chain, in one that is handed in, and
/// past its count.
#[test]
fn edges_of_depth_in_a_chain() {
    let numbers = |at: usize, place| {
        let mut places = in_turn(4);
        let mut chain = linked::chain_new(&places).kept;
        (places[at], chain.fifos[at].place) = (place, place);
        let new = linked::chain_new(&places);
        assert!(new.refusal == 0 || refused_new(&new));
        (new.refusal, with_and_without(chain, at))
    };
    let mut illegal = both(&[0, 3, 17, 65, 66]);
    illegal.push(Place::early_stall(2));
    for at in 0..MAX_FIFOS {
        for place in legal_places() {
            let accepted = (0, [(0, 0), (0, 0)]);
            assert_eq!(numbers(at, place), accepted, "{place:?} at {at}");
        }
        for &place in &illegal {
            let refused = (4, [(6, 6), (0, 0)]);
            assert_eq!(numbers(at, place), refused, "{place:?} at {at}");
        }
    }
}

/// One of sixteen FIFOs, wherever it stands, holds its capacity or one payload more.
#[test]
fn edges_of_capacity_in_a_chain() {
    let random = &Random::new(0);
    for (at, place) in (0..MAX_FIFOS).flat_map(|at| legal_places().map(move |place| (at, place))) {
        let mut chain = linked::chain_new(&in_turn(4)).kept;
        for oldest in [0, place.depth - 1] {
            chain.fifos[at] = states::filled_fifo(random, place, oldest, capacity(place));
            let accepted = [(0, 0), (0, 0)];
            assert_eq!(with_and_without(chain, at), accepted, "{place:?} at {at}");
            chain.fifos[at] = states::filled_fifo(random, place, oldest, capacity(place) + 1);
            let refused = [(6, 6), (0, 0)];
            assert_eq!(with_and_without(chain, at), refused, "{place:?} at {at}");
        }
    }
}

/// An early-stall FIFO of depth 2, wherever it stands among sixteen, is refused whatever it holds.
#[test]
fn early_stall_of_depth_2_in_a_chain() {
    let random = &Random::new(0);
    for (at, count) in (0..MAX_FIFOS).flat_map(|at| [(at, 0), (at, 1), (at, 2)]) {
        let mut chain = linked::chain_new(&in_turn(4)).kept;
        chain.fifos[at] = states::filled_fifo(random, Place::early_stall(2), at % 2, count);
        let refused = [(6, 6), (0, 0)];
        assert_eq!(with_and_without(chain, at), refused, "{count} held at {at}");
    }
}

/// Offers of random payloads with a sink that is never ready, and as many cycles with a ready sink and no offer.
fn fill_and_drain(random: &Random, cycles: usize) -> [Offered; 2] {
    let fill = Offered {
        control: random.bytes(cycles).iter().map(|b| b & 0xf0 | 1).collect(),
        data: random.words(cycles),
        sink: vec![0; cycles],
    };
    let drain = Offered {
        control: vec![0; cycles],
        data: vec![0; cycles],
        sink: vec![1; cycles],
    };
    [fill, drain]
}

/// Sixteen FIFOs of depth 64, plain, early-stall or in turn, from several positions on, filled by a run and drained by
/// another: they hold 1,024 payloads, less one for each that is early-stall, and these come out as they went in.
#[test]
fn the_longest_of_the_deepest() {
    let random = &Random::new(0);
    let chains = [
        ([Place::plain(64); 16], 1_024),
        ([Place::early_stall(64); 16], 1_008),
        (in_turn(64), 1_016),
    ];
    for ((places, most), oldest) in chains.map(|c| [0, 1, 16, 63].map(|o| (c, o))).concat() {
        let mut empty = linked::chain_new(&places).kept;
        empty.fifos.iter_mut().for_each(|f| f.oldest = oldest);
        let [fill, drain] = fill_and_drain(random, most);
        let (mut control, mut data) = (vec![0; most], vec![0; most]);
        let filled = linked::chain_run(empty, &fill, &mut control, &mut data);
        assert_eq!(filled.refusal, 0);
        assert!(filled
            .next
            .fifos
            .iter()
            .all(|f| f.count == capacity(f.place)));
        let full = linked::chain_step(filled.next, true, NOTHING, false, false);
        assert_eq!((full.refusal, full.ready), (0, false));
        let drained = linked::chain_run(filled.next, &drain, &mut control, &mut data);
        assert_eq!(drained.refusal, 0);
        let delivered: Vec<u8> = fill.control.iter().map(|c| c | 2).collect();
        assert_eq!((control, data), (delivered, fill.data));
        assert_eq!(Line::of(&drained.next), Line::of(&empty));
    }
}

/// A FIFO of every place, between two others, is filled by a run: it holds depth payloads, or depth - 1.
#[test]
fn fills_to_its_capacities() {
    let random = &Random::new(0);
    let [fill, _] = fill_and_drain(random, 100);
    for place in legal_places() {
        let chain = linked::chain_new(&[Place::early_stall(4), place, Place::plain(4)]).kept;
        let ran = linked::chain_run(chain, &fill, &mut [0; 100], &mut [0; 100]);
        let counts = [0, 1, 2].map(|i| ran.next.fifos[i].count);
        assert_eq!(
            (ran.refusal, counts),
            (0, [3, capacity(place), 4]),
            "{place:?}"
        );
    }
}

/// No call changes the places of a chain: a step, a clear, a run, one with clears, or a refused one, on an empty chain
/// and on a full one.
#[test]
fn the_kinds_survive() {
    let random = &Random::new(0);
    let [fill, drain] = fill_and_drain(random, 300);
    let mut cleared = fill.clone();
    (0..300).step_by(7).for_each(|c| cleared.control[c] |= 4);
    let mut refused = fill.clone();
    refused.control[0] |= 8;
    let legal: Vec<Place> = legal_places().collect();
    for start in 0..legal.len() {
        let places: [Place; MAX_FIFOS] =
            std::array::from_fn(|i| legal[(start + 5 * i) % legal.len()]);
        let empty = linked::chain_new(&places).kept;
        let mut full = empty;
        for fifo in &mut full.fifos {
            *fifo = states::filled_fifo(random, fifo.place, 1, capacity(fifo.place));
        }
        for chain in [empty, full] {
            let illegal = Payload { data: 0, strb: 16 };
            let steps = [(NOTHING, false), (NOTHING, true), (illegal, false)];
            let stepped = steps
                .map(|(payload, clear)| linked::chain_step(chain, true, payload, true, clear).next);
            let runs = [&fill, &drain, &cleared, &refused];
            let ran = runs.map(|offered| {
                linked::chain_run(chain, offered, &mut [0; 300], &mut [0; 300]).next
            });
            for next in [&stepped[..], &ran].concat() {
                assert_eq!(next.fifos.map(|fifo| fifo.place), places);
            }
        }
    }
}

/// The longest chain of the deepest FIFOs is made, stepped and run on a stack of 256 KB, a thirty-second part of the usual one.
#[test]
fn a_small_stack() {
    let calls = || {
        let chain = linked::chain_new(&in_turn(MAX_DEPTH)).kept;
        let chain = linked::chain_step(chain, true, NOTHING, true, false).next;
        let offered = Offered {
            control: vec![0xf1; 100],
            data: vec![1; 100],
            sink: vec![1; 100],
        };
        linked::chain_run(chain, &offered, &mut [0; 100], &mut [0; 100]).refusal
    };
    let thread = std::thread::Builder::new().stack_size(256 * 1_024);
    assert_eq!(thread.spawn(calls).unwrap().join().unwrap(), 0);
}
