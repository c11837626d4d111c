//! The exact delivery time of request T-12: the call against running the plain model, on random states and on what calls
//! hand back, and the request's formula against running it, over every content of short lines.

use crate::chain::{compare_run, compare_step, mix, offered};
use crate::delay::{place_of, short_lines};
use outside::answers::{Chain, DeliveryTime, Payload, Place, MAX_DEPTH, MAX_FIFOS};
use outside::models::chain::{self, time_by_formula, time_by_running, Line};
use outside::models::fifo::{capacity, Stage, NOTHING};
use outside::random::{agree_in_all, same, Random};
use outside::{linked, states};
use std::collections::BTreeSet;

/// What a payload's number should reach among those held, where it is not refused.
const FOUND: [&str; 11] = [
    "0",
    "0, this very cycle",
    "0, alone at the mouth",
    "0, the last of a full line",
    "0, a gap ahead",
    "0, its own way is the longest",
    "0, held up by those ahead",
    "0, not the first of its FIFO",
    "0, in the mouth of 16",
    "0, mixed",
    "0, another has an equal payload",
];

/// The kinds of an answer of a line: its refusal, and where payload i stands.
fn at_payload(line: &Option<Line>, i: usize, answer: DeliveryTime) -> BTreeSet<String> {
    let DeliveryTime { refusal, cycles } = answer;
    let mut kinds = BTreeSet::from([refusal.to_string()]);
    let Some(line) = line else {
        return kinds;
    };
    let (held, k) = (line.held(), line.0.len());
    if refusal == 8 {
        kinds.insert(match held.len() {
            0 => "8, nothing is held".to_string(),
            number if number == i => "8, as many are held".to_string(),
            _ => "8, fewer are held".to_string(),
        });
        return kinds;
    }
    let mut kind = |name: &str, is: bool| {
        if is {
            kinds.insert(format!("0, {name}"));
        }
    };
    // The payloads held in the FIFOs ahead, and in how many FIFOs.
    let (mut first, mut ahead) = (0, 0);
    let mut gap = false;
    for stage in line.0.iter().rev() {
        if i < first + stage.held.len() {
            break;
        }
        gap |= stage.held.is_empty();
        first += stage.held.len();
        ahead += 1;
    }
    let full = line.0.iter().all(|stage| !stage.ready());
    kind("this very cycle", cycles == 0);
    kind(
        "alone at the mouth",
        held.len() == 1 && ahead == k - 1 && k > 1,
    );
    kind("the last of a full line", full && i + 1 == held.len());
    kind("a gap ahead", gap);
    kind("its own way is the longest", i > 0 && cycles == ahead);
    kind("held up by those ahead", cycles > ahead + i - first);
    kind("not the first of its FIFO", i > first);
    kind("in the mouth of 16", k == 16 && ahead == 15);
    kind(
        "mixed",
        mix(line.0.iter().map(|stage| stage.place)) == "mixed",
    );
    kind(
        "another has an equal payload",
        held.iter().filter(|&&payload| payload == held[i]).count() > 1,
    );
    kinds
}

/// The call's answer is the formula's, and what running the model gives with no offer, with one in every cycle, and with
/// some.
pub fn compare_time(
    random: &Random,
    kept: Chain,
    i: usize,
    call: impl Fn(Chain, usize) -> DeliveryTime,
) -> Result<BTreeSet<String>, String> {
    let line = Line::of(&kept);
    let answer = call(kept, i);
    let want = chain::delivery_time(line.clone(), i);
    same("time", &(answer, i, &line), &(want, i, &line))?;
    if let (Some(line), 0) = (&line, want.refusal) {
        let offer = || Some(states::legal_payload(random));
        let others = [
            time_by_formula(line, i),
            time_by_running(line.clone(), i, offer),
            time_by_running(line.clone(), i, || offer().filter(|_| random.coin())),
        ];
        let all = [want.cycles; 3];
        same("time with offers", &(others, i, line), &(all, i, line))?;
    }
    Ok(at_payload(&line, i, answer))
}

/// A payload's number: one that is held, the first that is not, or any.
fn number(random: &Random, chain: &Chain) -> usize {
    let held = Line::of(chain).map_or(random.below(40), |line| line.held().len());
    match random.below(6) {
        0 => held,
        1 => random.pick(&[held + 1, 1024, 1025, 1 << 32, usize::MAX - 1, usize::MAX]),
        2 => held.saturating_sub(1),
        3 => 0,
        _ => random.below(held.max(1)),
    }
}

/// Few FIFOs of a chain hold something, or each is full.
fn thinned(random: &Random, mut chain: Chain) -> Chain {
    let kind = random.below(4);
    for at in 0..chain.count.min(MAX_FIFOS) {
        let fifo = &mut chain.fifos[at];
        match kind {
            0 if !random.once_in(4) => fifo.count = 0,
            1 => fifo.count = usize::from(at == 0),
            2 if fifo.place.depth > 0 => fifo.count = capacity(fifo.place),
            _ => {}
        }
    }
    // Two payloads that are equal.
    if random.coin() {
        let used = &mut chain.fifos[..chain.count.min(MAX_FIFOS)];
        let same = states::legal_payload(random);
        used.iter_mut().for_each(|fifo| fifo.slots.fill(same));
    }
    chain
}

/// A chain of any form with a payload's number.
pub fn any_time(random: &Random) -> (Chain, usize) {
    let chain = thinned(random, states::any_chain(random));
    (chain, number(random, &chain))
}

#[test]
fn delivery_time_of_any_state() {
    let refusals = [
        "6",
        "8",
        "8, nothing is held",
        "8, as many are held",
        "8, fewer are held",
    ];
    let kinds = [&FOUND[..], &refusals].concat();
    agree_in_all(20_000, &kinds, |random| {
        let (chain, i) = any_time(random);
        compare_time(random, chain, i, linked::chain_delivery_time)
    });
}

/// Steps and runs on a new chain, and then every payload's number up to the number held.
#[test]
fn delivery_time_after_calls() {
    let kinds = ["0", "8", "8, nothing is held", "8, as many are held"];
    let reached = ["0, this very cycle", "0, a gap ahead", "0, mixed"];
    let kinds: BTreeSet<&str> = kinds.into_iter().chain(reached).collect();
    let mut seen = BTreeSet::new();
    for seed in 0..1_500 {
        let random = &Random::new(seed);
        let places = states::legal_places(random, 1 + random.below(MAX_FIFOS));
        let mut kept = linked::chain_new(&places).kept;
        for _ in 0..random.below(8) {
            let back = if random.once_in(3) {
                compare_run(random, kept, &offered(random), linked::chain_run)
            } else {
                compare_step(random, kept, linked::chain_step)
            };
            kept = back.unwrap().0;
        }
        for i in 0..=Line::of(&kept).unwrap().held().len() {
            seen.extend(compare_time(random, kept, i, linked::chain_delivery_time).unwrap());
        }
    }
    assert!(!seen.contains("6"), "calls leave no broken form");
    let missing = kinds.into_iter().filter(|&kind| !seen.contains(kind));
    assert_eq!(missing.collect::<Vec<_>>(), [""; 0]);
}

/// Every content of a line of these capacities.
fn contents(capacities: &[usize]) -> Vec<Line> {
    let mut lines = vec![Line(Vec::new())];
    for &capacity in capacities {
        let longer = |line: &Line| {
            let stage = |held| Stage {
                place: place_of(capacity),
                held: vec![NOTHING; held],
            };
            let Line(stages) = line.clone();
            (0..=capacity).map(move |held| Line([stages.clone(), vec![stage(held)]].concat()))
        };
        lines = lines.iter().flat_map(longer).collect();
    }
    lines
}

/// The payloads whose time by the formula is not the one found by running, whatever is offered.
fn mistimed(capacities: &[usize]) -> usize {
    let offers: [fn() -> Option<Payload>; 2] = [|| None, || Some(NOTHING)];
    let mut mistimed = 0;
    for line in contents(capacities) {
        for i in 0..line.held().len() {
            let formula = time_by_formula(&line, i);
            let differs = |offer| time_by_running(line.clone(), i, offer) != formula;
            mistimed += usize::from(offers.into_iter().any(differs));
        }
    }
    mistimed
}

#[test]
fn capacities_from_2_keep_the_formula() {
    for line in short_lines(4) {
        assert_eq!(mistimed(&line), 0, "{line:?}");
    }
}

/// With capacity 1 behind the mouth the formula is too soon for some payload.
#[test]
fn capacity_1_breaks_the_formula() {
    assert!(mistimed(&[2, 1]) > 0);
}

/// One payload at the mouth, full chains, and one with a gap.
#[test]
fn examples() {
    let random = &Random::new(0);
    let places = [
        Place::plain(2),
        Place::early_stall(4),
        Place::plain(2),
        Place::plain(MAX_DEPTH),
    ];
    let chain = |held: &[usize]| {
        let mut chain = linked::chain_new(&places[..held.len()]).kept;
        for (fifo, &count) in chain.fifos.iter_mut().zip(held) {
            *fifo = states::filled_fifo(random, fifo.place, 1, count);
        }
        chain
    };
    let times = |held: &[usize]| -> Vec<usize> {
        let chain = chain(held);
        let time = |i| linked::chain_delivery_time(chain, i);
        let all = (0..held.iter().sum()).map(time);
        all.map(|time| (time.refusal == 0).then_some(time.cycles).unwrap())
            .collect()
    };
    assert_eq!(times(&[1, 0, 0]), [2]);
    assert_eq!(times(&[1, 0, 0, 0]), [3]);
    assert_eq!(times(&[2, 3, 2]), [0, 1, 2, 3, 4, 5, 6]);
    assert_eq!(times(&[2, 0, 1]), [0, 2, 3]);
    assert_eq!(times(&[2, 3, 2, 64]), (0..71).collect::<Vec<_>>());
}
