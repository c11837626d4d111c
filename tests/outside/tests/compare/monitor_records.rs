//! Records that no bursts could have left, and records that may see few cycles more.

use crate::monitor::fed;
use outside::answers::{Monitor, Payload, BROKEN, CLEAN, SEQ};
use outside::linked;
use outside::models::monitor::fresh;
use outside::traces::Burst;
use std::collections::HashSet;

fn clean() -> Monitor {
    Monitor {
        cycles: 4,
        handshakes: 2,
        ..fresh(true)
    }
}

fn stalled() -> Monitor {
    let (data, strb) = (9, 15);
    Monitor {
        stalled: true,
        payload: Payload { data, strb },
        ..clean()
    }
}

fn counted() -> Monitor {
    Monitor {
        counted: true,
        due: 65_535,
        ..clean()
    }
}

fn broken(rule: u8) -> Monitor {
    Monitor {
        verdict: BROKEN,
        rule,
        cycle: 3,
        ..clean()
    }
}

fn with(handshakes: u32, record: Monitor) -> Monitor {
    Monitor {
        handshakes,
        ..record
    }
}

fn cleared(clears: u32, record: Monitor) -> Monitor {
    Monitor { clears, ..record }
}

/// How a burst is refused by the call, which leaves the same record as the model.
fn refusal(mut record: Monitor, control: &[u8], data: &[u32]) -> Result<u8, String> {
    let burst = (control.to_vec(), data.to_vec());
    fed(&mut record, &burst, linked::monitor_feed)
}

/// A test of refusal 6: its name, the nearest record that passes, and a change of one field, after which this test alone refuses.
type Test = (&'static str, Monitor, fn(&mut Monitor));

fn tests() -> Vec<Test> {
    vec![
        ("strb 16", stalled(), |m| m.payload.strb = 16),
        ("due 65536", counted(), |m| m.due = 65_536),
        ("data beside stalled off", clean(), |m| m.payload.data = 1),
        ("strb beside stalled off", clean(), |m| m.payload.strb = 1),
        ("data in a broken one", broken(4), |m| m.payload.data = 1),
        ("strb in a broken one", broken(2), |m| m.payload.strb = 1),
        ("due beside counted off", clean(), |m| m.due = 1),
        ("due in a broken one", broken(SEQ), |m| m.due = 1),
        ("a counter with seq off", counted(), |m| m.seq = false),
        ("clean with verdict 0", clean(), |m| m.verdict = 0),
        ("clean with verdict 3", clean(), |m| m.verdict = 3),
        ("broken with verdict 0", broken(4), |m| m.verdict = 0),
        ("broken with verdict 3", broken(4), |m| m.verdict = 3),
        ("clean with a rule", clean(), |m| m.rule = 4),
        ("clean with a cycle", clean(), |m| m.cycle = 1),
        ("more handshakes than cycles", with(4, clean()), |m| {
            m.handshakes = 5
        }),
        ("all handshakes and a stall", with(3, stalled()), |m| {
            m.handshakes = 4
        }),
        ("a counter without handshake", with(1, counted()), |m| {
            m.handshakes = 0
        }),
        ("broken by rule 0", broken(4), |m| m.rule = 0),
        ("broken by rule 1", broken(2), |m| m.rule = 1),
        ("broken by rule 3", broken(4), |m| m.rule = 3),
        ("broken by rule 5", broken(4), |m| m.rule = 5),
        ("broken by rule 99", broken(SEQ), |m| m.rule = 99),
        ("broken by rule align", broken(SEQ), |m| m.rule = 101),
        ("a broken cycle not seen", broken(4), |m| m.cycle = 4),
        ("broken with a stall", broken(4), |m| m.stalled = true),
        ("broken with a counter", broken(SEQ), |m| m.counted = true),
        ("rule 4, all handshakes", broken(4), |m| m.handshakes = 3),
        ("rule 2, all handshakes", broken(2), |m| m.handshakes = 3),
        ("rule seq with seq off", broken(SEQ), |m| m.seq = false),
        ("rule seq without handshake", with(1, broken(SEQ)), |m| {
            m.handshakes = 0
        }),
        ("rule seq, more handshakes", with(3, broken(SEQ)), |m| {
            m.handshakes = 4
        }),
    ]
}

/// The tests of the room for clears beside handshakes.
fn tests_of_clears() -> Vec<Test> {
    const MOST: u32 = u32::MAX;
    let alone = |record| cleared(4, with(0, record));
    vec![
        ("more clears than cycles", alone(clean()), |m| m.clears = 5),
        ("a clear too many", cleared(2, clean()), |m| m.clears = 3),
        ("a handshake too many", cleared(2, clean()), |m| {
            m.handshakes = 3
        }),
        ("a cycle too few", cleared(2, clean()), |m| m.cycles = 3),
        ("no cycle for the stall", cleared(1, stalled()), |m| {
            m.clears = 2
        }),
        (
            "a counter and clears alone",
            cleared(3, with(1, counted())),
            |m| m.handshakes = 0,
        ),
        ("rule 4, no stall", broken(4), |m| m.clears = 1),
        ("rule 2, no stall", broken(2), |m| m.clears = 1),
        (
            "rule 4, clears alone",
            cleared(2, with(0, broken(4))),
            |m| m.clears = 3,
        ),
        (
            "rule 2, clears alone",
            cleared(2, with(0, broken(2))),
            |m| m.clears = 3,
        ),
        ("rule seq, a clear too many", cleared(1, broken(SEQ)), |m| {
            m.clears = 2
        }),
        (
            "rule seq, clears alone",
            cleared(2, with(1, broken(SEQ))),
            |m| m.handshakes = 0,
        ),
        ("clean, sum 2^32", clean(), |m| m.clears = MOST - 1),
        ("clean, sum 2^32 + 1", clean(), |m| m.clears = MOST),
        ("stalled, sum 2^32 with the stall", stalled(), |m| {
            m.clears = MOST - 2
        }),
        ("counted, sum 2^32", counted(), |m| m.clears = MOST - 1),
        ("rule 4, sum 2^32 with the stall", broken(4), |m| {
            m.clears = MOST - 2
        }),
        ("rule 2, sum 2^32", broken(2), |m| m.clears = MOST - 1),
        ("rule seq, sum 2^32", broken(SEQ), |m| m.clears = MOST - 1),
        (
            "handshakes 2^32 - 1 and a clear",
            cleared(1, clean()),
            |m| m.handshakes = MOST,
        ),
    ]
}

/// Each test of refusal 6 by itself, beside a record that passes it, with bursts that are good, refused before it and after it.
#[test]
fn each_test_of_a_record() {
    for (name, well, damage) in [tests(), tests_of_clears()].concat() {
        let mut damaged = well;
        damage(&mut damaged);
        for (record, number, reserved) in [(well, Ok(0), Ok(2)), (damaged, Ok(6), Ok(6))] {
            assert_eq!(refusal(record, &[], &[]), number, "{name}");
            assert_eq!(refusal(record, &[0xf3], &[65_535]), number, "{name}");
            assert_eq!(refusal(record, &[4, 0xf7], &[1, 9]), number, "{name}");
            assert_eq!(refusal(record, &[1, 9], &[0, 0]), reserved, "{name}");
            assert_eq!(refusal(record, &[4, 12], &[0, 0]), reserved, "{name}");
            assert_eq!(refusal(record, &[0xf3, 8], &[0]), Ok(1), "{name}");
        }
    }
}

/// Bursts of one cycle: every valid, ready and clear, with two strobes and three words.
fn one_cycle() -> Vec<Burst> {
    let strobes = |low: u8| [low, 0x30 | low];
    let controls = [0, 1, 2, 3, 4, 5, 6, 7].map(strobes).concat();
    let words = [0, 7, 65_535];
    let with_words = |control: u8| words.map(|word| (vec![control], vec![word]));
    controls.into_iter().flat_map(with_words).collect()
}

/// The records that up to so many of these bursts leave.
fn reached(bursts: usize) -> HashSet<Monitor> {
    let mut all = HashSet::from([false, true].map(linked::monitor_fresh));
    for _ in 0..bursts {
        for record in all.clone() {
            for burst in one_cycle() {
                let mut next = record;
                assert_eq!(fed(&mut next, &burst, linked::monitor_feed), Ok(0));
                all.insert(next);
            }
        }
    }
    all
}

/// The records, with each of the values in one field.
fn each<T: Copy>(records: Vec<Monitor>, values: &[T], set: fn(&mut Monitor, T)) -> Vec<Monitor> {
    let mut all = Vec::new();
    for mut record in records {
        for &value in values {
            set(&mut record, value);
            all.push(record);
        }
    }
    all
}

/// Every record with small fields is accepted exactly when it is one of those that bursts leave.
#[test]
fn small_records() {
    let reached = reached(5);
    let mut records = vec![fresh(false)];
    records = each(records, &[false, true], |m, seq| m.seq = seq);
    records = each(records, &[0, 1, 2, 3, 4, 5], |m, n| m.cycles = n);
    records = each(records, &[0, 1, 2, 3], |m, n| m.verdict = n);
    records = each(records, &[0, 2, 3, 4, 100], |m, n| m.rule = n);
    records = each(records, &[0, 1, 2, 3, 4, 5], |m, n| m.cycle = n);
    records = each(records, &[0, 1, 2, 3, 4, 5, 6], |m, n| m.handshakes = n);
    records = each(records, &[0, 1, 2, 3, 4, 5, 6], |m, n| m.clears = n);
    records = each(records, &[false, true], |m, stalled| m.stalled = stalled);
    records = each(records, &[0, 7, 65_535], |m, word| m.payload.data = word);
    records = each(records, &[0, 3, 16], |m, strb| m.payload.strb = strb);
    records = each(records, &[false, true], |m, counted| m.counted = counted);
    records = each(records, &[0, 1, 8, 65_536], |m, due| m.due = due);
    let mut accepted = 0;
    for record in records {
        let legal = reached.contains(&record);
        let number = if legal { 0 } else { 6 };
        assert_eq!(refusal(record, &[], &[]), Ok(number), "{record:?}");
        accepted += usize::from(legal);
    }
    assert_eq!(accepted, reached.len());
}

/// Records with counts of every size are accepted exactly when their cycles have room, by sums in 64 bits.
#[test]
fn large_records() {
    let most = u32::MAX;
    let half = 1 << 31;
    let sizes = [0, 1, 2, half - 1, half, half + 1, most - 2, most - 1, most];
    let forms = [
        clean(),
        stalled(),
        counted(),
        broken(4),
        broken(2),
        broken(SEQ),
    ];
    let mut records = forms.to_vec();
    records = each(records, &sizes, |m, n| m.cycles = n);
    records = each(records, &sizes, |m, n| m.handshakes = n);
    records = each(records, &sizes, |m, n| m.clears = n);
    let (broken, clean): (Vec<Monitor>, Vec<Monitor>) = records
        .into_iter()
        .partition(|record| record.verdict == BROKEN);
    records = clean;
    records.extend(each(broken, &sizes, |m, n| m.cycle = n));
    let mut accepted = 0;
    for record in records {
        let [cycles, cycle] = [record.cycles, record.cycle].map(u64::from);
        let both = u64::from(record.handshakes) + u64::from(record.clears);
        let legal = match (record.verdict, record.rule) {
            (CLEAN, _) => {
                both + u64::from(record.stalled) <= cycles
                    && (record.handshakes > 0 || !record.counted)
            }
            (_, SEQ) => record.handshakes > 0 && both <= cycle && cycle < cycles,
            _ => both < cycle && cycle < cycles,
        };
        let number = if legal { 0 } else { 6 };
        assert_eq!(refusal(record, &[], &[]), Ok(number), "{record:?}");
        accepted += usize::from(legal);
    }
    assert!(accepted > 500, "{accepted} accepted");
}

/// Bursts that just fit into the cycles that a record may see, and that just do not, whatever else is wrong with them.
#[test]
fn the_most_cycles() {
    let forms = [clean(), stalled(), counted(), broken(4), broken(SEQ)];
    let near = forms.map(|form| [0, 1, 3, 70_000].map(|left| (form, left)));
    for (form, left) in near.concat() {
        let cycles = u32::MAX - left as u32;
        let record = Monitor { cycles, ..form };
        let damaged = Monitor {
            verdict: 3,
            ..record
        };
        for n in [0, 1, left, left + 1] {
            let (idle, reserved, words) = (vec![0; n], vec![8; n], vec![0; n]);
            let clears = vec![4; n];
            let fits = |number| Ok(if n > left { 3 } else { number });
            let or_reserved = if n > 0 { 2 } else { 0 };
            assert_eq!(refusal(record, &idle, &words), fits(0));
            assert_eq!(refusal(record, &clears, &words), fits(0));
            assert_eq!(refusal(record, &reserved, &words), fits(or_reserved));
            assert_eq!(refusal(damaged, &idle, &words), fits(6));
            assert_eq!(refusal(damaged, &reserved, &words), fits(6));
            assert_eq!(refusal(damaged, &reserved, &vec![0; n + 1]), Ok(1));
        }
    }
}

/// Feeds a record its last two cycles; after them it takes no other, and an empty burst changes nothing.
fn fed_to_the_end(before: &Monitor, control: [u8; 2], data: [u32; 2], want: Monitor) {
    let mut record = *before;
    assert_eq!(linked::monitor_feed(&mut record, &control, &data), 0);
    assert_eq!(record, want);
    assert_eq!(linked::monitor_feed(&mut record, &[], &[]), 0);
    assert_eq!(linked::monitor_feed(&mut record, &[0], &[0]), 3);
    assert_eq!(record, want);
}

/// The last cycle that a record may see, and its handshakes, its clears and its broken cycle.
#[test]
fn the_last_cycle() {
    let most = u32::MAX;
    let broken = Monitor {
        cycles: most,
        verdict: BROKEN,
        rule: 4,
        cycle: most - 1,
        ..fresh(true)
    };
    let shaken = Monitor {
        cycles: most - 2,
        handshakes: most - 2,
        ..fresh(true)
    };
    let want = Monitor {
        cycles: most,
        handshakes: most,
        counted: true,
        due: 10,
        ..fresh(true)
    };
    fed_to_the_end(&shaken, [3, 0xf3], [0, 9], want);
    let handshakes = most - 2;
    let want = Monitor {
        handshakes,
        ..broken
    };
    fed_to_the_end(&shaken, [1, 0], [0, 0], want);

    let cleared = Monitor {
        cycles: most - 2,
        clears: most - 2,
        ..fresh(true)
    };
    let want = Monitor {
        cycles: most,
        clears: most,
        ..fresh(true)
    };
    fed_to_the_end(&cleared, [0xf7, 0xf5], [0, 9], want);
    let clears = most - 2;
    fed_to_the_end(&cleared, [1, 0], [0, 0], Monitor { clears, ..broken });
}
