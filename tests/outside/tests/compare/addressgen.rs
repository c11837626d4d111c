use std::collections::{BTreeMap, BTreeSet};

use outside::answers::{AddressRun, Settings, State};
use outside::lent::{room, Lent};
use outside::linked;
use outside::models::addressgen;
use outside::random::{agree, same, Compared, Random};

/// A number that is small, near the top of 32 bits, or anything.
fn number(random: &Random) -> u32 {
    match random.below(4) {
        0 => u32::MAX - random.word() % 4,
        1 => random.word(),
        _ => random.word() % 7,
    }
}

fn settings(random: &Random) -> Settings {
    Settings {
        base: number(random),
        d0: number(random),
        d1: number(random),
        total: random.pick(&[random.word() % 300, number(random), 70_000]),
        s0: number(random),
        s1: number(random),
        s2: number(random),
        mask: random.pick(&[0, 1, 2, 3, 3, 3, 4, 255, random.byte()]),
        store: random.coin(),
    }
}

/// Settings whose total lies near a number at which a dimension begins to advance, and some of whose strides are 0.
fn edge_settings(random: &Random) -> Settings {
    let length = || random.pick(&[0, 1, 1, 2, 3, 40, 65_535, 65_536, 65_537, number(random)]);
    let (d0, d1) = (length(), length());
    let plane = d0.wrapping_mul(d1);
    let near = [
        0,
        1,
        2,
        d0,
        d0.wrapping_add(1),
        plane,
        plane.wrapping_add(1),
        40,
    ];
    let stride = || random.pick(&[0, 4, number(random)]);
    Settings {
        base: number(random),
        d0,
        d1,
        total: random.pick(&near),
        s0: stride(),
        s1: stride(),
        s2: stride(),
        mask: random.pick(&[0, 1, 2, 3, 3, 3]),
        store: !random.once_in(5),
    }
}

/// Settings of either kind.
pub fn any_settings(random: &Random) -> Settings {
    random.pick(&[settings, edge_settings])(random)
}

/// The start, or any state, its ov near the total or past it.
fn state(random: &Random, total: u32) -> State {
    if random.coin() {
        return addressgen::START;
    }
    let near = total.wrapping_sub(3).wrapping_add(random.word() % 6);
    State {
        a0: number(random),
        a1: number(random),
        a2: number(random),
        c0: number(random),
        c1: number(random),
        ov: random.pick(&[near, total, random.word() % 7, number(random)]),
    }
}

/// What the call and the model answer and leave in the buffer is the same. Gives the answer, and the refusals that applied.
fn compare_run(
    random: &Random,
    settings: &Settings,
    state: &State,
    n: usize,
    room: usize,
    call: impl Fn(&Settings, &State, usize, &mut [u32]) -> AddressRun,
) -> Result<(AddressRun, Vec<u8>), String> {
    let mut out = Lent::words(random, room);
    let mut want = out.clone();
    let answer = call(settings, state, n, out.lend());
    let model = addressgen::run(settings, state, n, want.lend());
    let input = (*settings, *state, n, room);
    same("answer", &(answer, input), &(model, input))?;
    same("words", &(out, input), &(want, input))?;
    Ok((answer, addressgen::grounds(settings, state, n, room)))
}

/// Some runs in a row, each from the state that the one before handed back. The kind: every refusal that applied to the last.
pub fn compare(
    random: &Random,
    call: impl Fn(&Settings, &State, usize, &mut [u32]) -> AddressRun,
) -> Compared {
    let settings = any_settings(random);
    let mut state = state(random, settings.total);
    let mut kind = String::new();
    for _ in 0..1 + random.below(3) {
        let most = random.pick(&[3, 30, 30, 30, 400, 400, 3_000]);
        let n = random.below(most);
        let room = room(random, n);
        let n = if random.once_in(30) {
            usize::MAX - n
        } else {
            n
        };
        let (answer, grounds) = compare_run(random, &settings, &state, n, room, &call)?;
        state = answer.state;
        let done = if answer.done { " done" } else { "" };
        kind = format!("{grounds:?}{done}");
    }
    Ok(kind)
}

#[test]
fn addressgen_run() {
    let kinds = [
        "[]",
        "[] done",
        "[10]",
        "[10, 11]",
        "[10, 11, 6]",
        "[10, 11, 6, 7]",
        "[10, 11, 7]",
        "[10, 6]",
        "[10, 6, 7]",
        "[10, 7]",
        "[11]",
        "[11, 6]",
        "[11, 6, 7]",
        "[11, 7]",
        "[6]",
        "[6, 7]",
        "[7]",
    ];
    agree(120_000, &kinds, |random| {
        compare(random, linked::addressgen_run)
    });
}

/// How a store's total lies to the number past which the one dimension whose stride is 0 advances, if that is near.
fn edge(s: &Settings) -> Option<String> {
    let plane = u64::from(s.d0) * u64::from(s.d1);
    let (stride, most, note) = match (s.s0, s.s1, s.s2) {
        (0, 1.., 1..) => ("s0", 1, if s.d0 == 1 { ", d0 1" } else { "" }),
        (1.., 0, 1..) => ("s1", u64::from(s.d0), if s.d1 == 1 { ", d1 1" } else { "" }),
        (1.., 1.., 0) => ("s2", plane, ""),
        _ => return None,
    };
    let total = u64::from(s.total);
    let near = if total == most {
        "at"
    } else if total == most + 1 {
        "above"
    } else if total < most && total == most % (1 << 32) + 1 {
        "above its low half"
    } else {
        return None;
    };
    Some(format!("mask {}, {stride}{note}, {near}", s.mask))
}

/// One run of settings near an edge, from the start. The kind: the edge and the refusal.
pub fn compare_edge(
    random: &Random,
    call: impl Fn(&Settings, &State, usize, &mut [u32]) -> AddressRun,
) -> Compared {
    let settings = edge_settings(random);
    let n = random.below(60);
    let (answer, _) = compare_run(random, &settings, &addressgen::START, n, n, call)?;
    let kind = match edge(&settings) {
        _ if answer.refusal == 10 => "illegal".to_string(),
        _ if !settings.store => "load".to_string(),
        Some(edge) => edge,
        None => "other".to_string(),
    };
    Ok(format!("{kind}: {}", answer.refusal))
}

/// The edges of each clause: the settings, and the refusal at the number past which the dimension advances and just above it.
#[test]
fn addressgen_store_edges() {
    let near = |at: &str, refusals: [u8; 2]| {
        [
            format!("{at}, at: {}", refusals[0]),
            format!("{at}, above: {}", refusals[1]),
        ]
    };
    let edges = [
        ("mask 0, s0", [0, 11]),
        ("mask 0, s0, d0 1", [0, 11]),
        ("mask 1, s0", [0, 11]),
        ("mask 1, s0, d0 1", [0, 0]),
        ("mask 2, s0", [0, 11]),
        ("mask 2, s0, d0 1", [0, 11]),
        ("mask 3, s0", [0, 11]),
        ("mask 3, s0, d0 1", [0, 0]),
        ("mask 0, s1", [0, 0]),
        ("mask 0, s1, d1 1", [0, 0]),
        ("mask 1, s1", [0, 11]),
        ("mask 1, s1, d1 1", [0, 11]),
        ("mask 2, s1", [0, 0]),
        ("mask 2, s1, d1 1", [0, 0]),
        ("mask 3, s1", [0, 11]),
        ("mask 3, s1, d1 1", [0, 0]),
        ("mask 0, s2", [0, 0]),
        ("mask 1, s2", [0, 0]),
        ("mask 2, s2", [0, 0]),
        ("mask 3, s2", [0, 11]),
    ];
    let mut kinds: Vec<String> = edges.into_iter().flat_map(|e| near(e.0, e.1)).collect();
    kinds.extend((0..4).map(|mask| format!("mask {mask}, s2, above its low half: 0")));
    kinds.extend(["illegal: 10", "load: 0", "other: 0", "other: 11"].map(String::from));
    agree(60_000, &kinds, |random| {
        compare_edge(random, linked::addressgen_run)
    });
}

/// The dimension along which an iteration advanced, told by the counters after it.
fn along(s: &Settings, after: &State) -> usize {
    if s.mask & 1 == 0 || after.c0 > 1 {
        0
    } else if after.c1 > 1 {
        1
    } else {
        2
    }
}

/// Whether some iteration before the last one advances along a dimension whose stride is 0, by making them all.
fn advances_in_place(s: &Settings) -> bool {
    let strides = [s.s0, s.s1, s.s2];
    let mut state = addressgen::START;
    (1..s.total).any(|_| {
        addressgen::iterate(s, &mut state);
        strides[along(s, &state)] == 0
    })
}

/// All small settings: 11 is given exactly when the iterations advance in place, and then an address comes twice. Loads are run; a store
/// that is not refused may have an address twice all the same.
#[test]
fn addressgen_small_stores() {
    let mut seen: BTreeMap<(u8, bool), u32> = BTreeMap::new();
    for code in 0..4 * 4 * 15 * 8 * 4 {
        let bit = |n: u32, stride: u32| if code >> n & 1 == 0 { 0 } else { stride };
        let lengths = code / 32;
        let load = Settings {
            base: 0x1000,
            d0: lengths % 4,
            d1: lengths / 4 % 4,
            total: lengths / 16,
            s0: bit(2, 4),
            s1: bit(3, 4),
            s2: bit(4, 0x100),
            mask: (code % 4) as u8,
            store: false,
        };
        let store = Settings {
            store: true,
            ..load
        };
        let mut out = vec![0; load.total as usize];
        let loaded = linked::addressgen_run(&load, &addressgen::START, out.len(), &mut out);
        let stored = linked::addressgen_run(&store, &addressgen::START, 0, &mut []);
        if addressgen::bad_mask(&load) {
            assert_eq!((loaded.refusal, stored.refusal), (10, 10), "{load:?}");
            continue;
        }
        let twice = out.iter().collect::<BTreeSet<_>>().len() < out.len();
        let refusal = if advances_in_place(&load) { 11 } else { 0 };
        assert_eq!((loaded.refusal, loaded.done), (0, true), "{load:?}");
        assert_eq!(stored.refusal, refusal, "{load:?}");
        assert!(twice || refusal == 0, "{load:?}");
        *seen.entry((refusal, twice)).or_default() += 1;
    }
    let kinds: Vec<(u8, bool)> = seen.into_keys().collect();
    assert_eq!(kinds, [(0, false), (0, true), (11, true)]);
}

/// A run to the end of many iterations, in one go.
#[test]
fn addressgen_long_run() {
    agree(60, &["0", "10", "11"], |random| {
        let mut settings = settings(random);
        settings.total = 65_536 + random.word() % 20_000;
        let (answer, _) = compare_run(
            random,
            &settings,
            &addressgen::START,
            90_000,
            90_000,
            linked::addressgen_run,
        )?;
        Ok(answer.refusal.to_string())
    });
}

#[test]
fn addressgen_start() {
    assert_eq!(linked::addressgen_start(), addressgen::START);
}
