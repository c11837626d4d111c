//! The delivery bound of demand 3 in the plain model, over everything that can happen in short lines.

use outside::answers::{Payload, Place};
use outside::models::chain::{self, Line};
use outside::models::fifo::{Shown, NOTHING};
use std::collections::{BTreeMap, HashSet};
use std::hash::Hash;

/// The payload whose delivery is waited for. All others are `NOTHING`, so that only their numbers tell lines apart.
const AWAITED: Payload = Payload { data: 1, strb: 15 };

/// Whether the source offers, and whether the sink is ready.
const CYCLES: [(bool, bool); 4] = [(false, false), (false, true), (true, false), (true, true)];

/// One place has each capacity. That of capacity 1 is refused, and the model of a cycle does not ask.
pub fn place_of(capacity: usize) -> Place {
    match capacity % 2 {
        0 => Place::plain(capacity),
        _ => Place::early_stall(capacity + 1),
    }
}

/// A cycle with no clear: what is shown, and the line after it.
fn cycle(line: &Line, valid: bool, payload: Payload, sink: bool) -> (Shown, Line) {
    let (shown, next) = chain::step(Some(line.clone()), valid, payload, sink, false);
    (shown, next.unwrap())
}

/// Whatever follows from these, in any number of steps.
fn reached<T: Clone + Eq + Hash>(from: Vec<T>, follow: impl Fn(&T) -> Vec<T>) -> HashSet<T> {
    let mut seen: HashSet<T> = from.iter().cloned().collect();
    let mut left = from;
    while let Some(next) = left.pop() {
        left.extend(follow(&next).into_iter().filter(|t| seen.insert(t.clone())));
    }
    seen
}

/// The lines, of FIFOs of these capacities from the mouth on, that cycles of any kind make of an empty one.
fn lines(capacities: &[usize]) -> HashSet<Line> {
    let places: Vec<Place> = capacities.iter().map(|&c| place_of(c)).collect();
    reached(vec![Line::empty(&places)], |line| {
        CYCLES
            .map(|(valid, sink)| cycle(line, valid, NOTHING, sink).1)
            .to_vec()
    })
}

/// For each number held, the lines just after the awaited payload was accepted with so many held.
fn accepted(capacities: &[usize]) -> BTreeMap<usize, Vec<Line>> {
    let mut accepted: BTreeMap<usize, Vec<Line>> = BTreeMap::new();
    for line in lines(capacities) {
        let held = line.0.iter().map(|stage| stage.held.len()).sum();
        for sink in [false, true] {
            let (shown, next) = cycle(&line, true, AWAITED, sink);
            if shown.ready {
                accepted.entry(held).or_default().push(next);
            }
        }
    }
    accepted
}

/// For each number held when a payload is accepted, in which later cycle with a ready sink it is delivered at the
/// latest.
fn latest(capacities: &[usize]) -> BTreeMap<usize, usize> {
    let of_lines = |lines: Vec<Line>| {
        let starts = lines.into_iter().map(|line| (line, 0)).collect();
        let waits = reached(starts, |(line, readies)| {
            let goes_on = |(valid, sink)| {
                let (shown, next) = cycle(line, valid, NOTHING, sink);
                let delivered = sink && shown.payload == AWAITED;
                (!delivered).then_some((next, readies + usize::from(sink)))
            };
            assert!(*readies < 100, "the payload is never delivered");
            CYCLES.into_iter().filter_map(goes_on).collect()
        });
        // The next cycle with a ready sink delivers it, at the latest.
        waits.iter().map(|(_, readies)| readies + 1).max().unwrap()
    };
    let accepted = accepted(capacities);
    let latest = accepted.into_iter().map(|(n, lines)| (n, of_lines(lines)));
    latest.collect()
}

/// The numbers held with which a payload is delivered later than the bound, with the cycle in which it is.
fn late(capacities: &[usize]) -> Vec<(usize, usize)> {
    let latest = latest(capacities);
    // Payloads are accepted with any number held but that of a full line.
    let most: usize = capacities.iter().sum();
    assert!(latest.keys().copied().eq(0..most), "{capacities:?}");
    let is_late = |&(n, cycle): &(usize, usize)| cycle > n + capacities.len();
    latest.into_iter().filter(is_late).collect()
}

/// The capacities of every line of one to `most` FIFOs, each of capacity 2 to 4.
pub fn short_lines(most: usize) -> Vec<Vec<usize>> {
    let longer = |line: &Vec<usize>| [2, 3, 4].map(|capacity| [&line[..], &[capacity]].concat());
    let mut lines = vec![vec![Vec::new()]];
    for length in 0..most {
        lines.push(lines[length].iter().flat_map(longer).collect());
    }
    lines.split_off(1).concat()
}

#[test]
fn capacities_from_2_keep_the_bound() {
    for line in short_lines(3) {
        assert_eq!(late(&line), [], "{line:?}");
        // With nothing held the payload takes a cycle for each FIFO, so that no smaller bound would do.
        assert_eq!(latest(&line)[&0], line.len(), "{line:?}");
    }
}

/// A payload that is accepted with two held is delivered in the fifth later cycle with a ready sink; the bound is four.
#[test]
fn capacity_1_behind_2_breaks_the_bound() {
    assert_eq!(late(&[2, 1]), [(2, 5)]);
}

#[test]
fn lines_with_capacity_1_that_keep_the_bound() {
    for line in [&[1, 2][..], &[1, 1], &[2, 1, 2]] {
        assert_eq!(late(line), [], "{line:?}");
    }
}
