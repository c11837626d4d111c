//! Request T-14: the address by number against stepping there, and the overlap of two generators against a set of addresses.

use crate::addressgen::any_settings;
use outside::answers::{AddressAt, Filled, Settings};
use outside::lent::{room, Lent};
use outside::models::address_at::{
    addresses, grounds_at, overlap_grounds, uncut, MAX_ITERATIONS, OVERLAP_REFUSALS, STEPPED,
};
use outside::random::{agree, agree_in_all, kinds_of, same, Random};
use outside::{linked, models};
use std::collections::{BTreeSet, HashSet};

/// The strides that each dimension should have: also one that is back after two steps, and one that goes back.
const STRIDES: [u32; 4] = [0, 4, 1 << 31, u32::MAX - 3];

/// The lengths that lines and planes should have.
const LENGTHS: [u32; 5] = [1, 2, 3, 65_536, u32::MAX];

/// Where an iteration stands, by the last dimension along which the generator has advanced before it.
const PLACES: [&str; 3] = ["in the first line", "in a later line", "in a later plane"];

/// The masks, with the dimensions that each has.
const DIMENSIONS: [(u8, usize); 4] = [(0, 1), (1, 2), (2, 1), (3, 3)];

/// What the refused numbers of iterations should reach.
const REFUSED_AT: [&str; 14] = [
    "[10]",
    "[10], mask 4",
    "[10], mask 255",
    "[10], d0 0",
    "[10], d1 0",
    "[10, 11]",
    "[10, 11, 8]",
    "[10, 8]",
    "[11]",
    "[11, 8]",
    "[8]",
    "[8], total 0",
    "[8], i is total",
    "[8], i is 2^32 - 1",
];

/// What the others should reach at each place.
const FOUND_AT: [&str; 8] = [
    "wrapped",
    "not wrapped",
    "load",
    "store",
    "the last",
    "total 2^32 - 1",
    "stepped to",
    "not stepped to",
];

fn kinds_at() -> Vec<String> {
    let mut kinds = REFUSED_AT.map(String::from).to_vec();
    for (mask, dimensions) in DIMENSIONS {
        for (dimension, place) in PLACES[..dimensions].iter().enumerate() {
            let place = format!("mask {mask}, {place}");
            kinds.extend(FOUND_AT.map(|found| format!("{place}, {found}")));
            kinds.extend(STRIDES.map(|stride| format!("{place}, s{dimension} {stride}")));
            kinds.push(place);
        }
        kinds.push(format!("mask {mask}, in the first line, i 0"));
        for dimension in 0..dimensions - 1 {
            kinds.extend(LENGTHS.map(|length| format!("mask {mask}, d{dimension} {length}")));
        }
    }
    let planes = ["a plane of 2^32", "past the low half of a plane"];
    kinds.extend(planes.map(|found| format!("mask 3, in a later line, {found}")));
    kinds
}

/// Settings of any form, often with one of the strides above, and with many iterations.
fn drawn(random: &Random) -> Settings {
    let drawn = any_settings(random);
    let stride = |given| random.pick(&[given, given, random.pick(&STRIDES)]);
    Settings {
        total: random.pick(&[drawn.total, drawn.total, 4_096, 4_097, u32::MAX]),
        s0: stride(drawn.s0),
        s1: stride(drawn.s1),
        s2: stride(drawn.s2),
        ..drawn
    }
}

/// The number of an iteration: at an end of the range, near the end of a line or a plane, or any.
fn number(random: &Random, s: &Settings) -> u32 {
    let end = random.pick(&[s.d0, s.d0.wrapping_mul(s.d1)]);
    match random.below(9) {
        0 => 0,
        1 => s.total.wrapping_sub(1),
        2 => s.total,
        3 => u32::MAX,
        4 => random.word(),
        5 | 6 => end.wrapping_sub(1).wrapping_add(random.word() % 3),
        _ => random.word() % s.total.max(1),
    }
}

/// The kinds of an iteration that is accepted.
fn found_at(s: &Settings, i: u32) -> BTreeSet<String> {
    let plane = u64::from(s.d0) * u64::from(s.d1);
    let dimension = match s.mask {
        1 | 3 if i < s.d0 => 0,
        3 if u64::from(i) >= plane => 2,
        1 | 3 => 1,
        _ => 0,
    };
    let long = (s.mask, dimension) == (3, 1) && plane >= 1 << 32;
    let stride = [s.s0, s.s1, s.s2][dimension];
    let mut kinds = kinds_of(
        format!("mask {}, {}", s.mask, PLACES[dimension]),
        &[
            ("wrapped", uncut(s, i) >= 1 << 32),
            ("not wrapped", uncut(s, i) < 1 << 32),
            ("load", !s.store),
            ("store", s.store),
            ("the last", i == s.total - 1),
            ("total 2^32 - 1", s.total == u32::MAX),
            ("stepped to", i < STEPPED),
            ("not stepped to", i >= STEPPED),
            ("i 0", i == 0),
            ("a plane of 2^32", long && plane == 1 << 32),
            ("past the low half of a plane", long && i >= plane as u32),
            (&format!("s{dimension} {stride}"), STRIDES.contains(&stride)),
        ],
    );
    let read = DIMENSIONS[usize::from(s.mask)].1 - 1;
    for (dimension, length) in [s.d0, s.d1][..read].iter().enumerate() {
        if LENGTHS.contains(length) {
            kinds.insert(format!("mask {}, d{dimension} {length}", s.mask));
        }
    }
    kinds
}

/// The call's answer is the model's, and the model's two ways to an address give the same.
pub fn compare_at(
    random: &Random,
    call: impl Fn(&Settings, u32) -> AddressAt,
) -> Result<BTreeSet<String>, String> {
    let settings = drawn(random);
    let i = number(random, &settings);
    let input = (settings, i);
    let want = models::address_at::address_at(&settings, i);
    same("address", &(call(&settings, i), input), &(want, input))?;
    let grounds = grounds_at(&settings, i);
    let kind = format!("{grounds:?}");
    Ok(match grounds[..] {
        [] => {
            let cut = uncut(&settings, i) as u32;
            same("the models", &(cut, input), &(want.address, input))?;
            found_at(&settings, i)
        }
        [10] => kinds_of(
            kind,
            &[
                ("mask 4", settings.mask == 4),
                ("mask 255", settings.mask == 255),
                ("d0 0", settings.mask < 4 && settings.d0 == 0),
                ("d1 0", settings.mask < 4 && settings.d0 > 0),
            ],
        ),
        [8] => kinds_of(
            kind,
            &[
                ("total 0", settings.total == 0),
                ("i is total", i == settings.total),
                ("i is 2^32 - 1", i == u32::MAX),
            ],
        ),
        _ => BTreeSet::from([kind]),
    })
}

#[test]
fn address_at() {
    agree_in_all(200_000, &kinds_at(), |random| {
        compare_at(random, linked::address_at)
    });
}

/// What the overlaps should reach beside every choice of refusals. An address of the first is met if the second also yields it.
const OVERLAPS: [&str; 29] = [
    "3, by the first",
    "3, by the second",
    "3, by both",
    "3, the first has one too many",
    "3, the second has one too many",
    "7, one short",
    "7, room for what is met",
    "0",
    "0, the first yields nothing",
    "0, the second yields nothing",
    "0, neither yields anything",
    "0, no address met",
    "0, every address met",
    "0, some addresses met",
    "0, one between not met",
    "0, another number in the second",
    "0, only its word met",
    "0, listed twice",
    "0, met twice",
    "0, as much room as iterations",
    "0, more room",
    "0, 4096 of the first",
    "0, 4096 of the second",
    "0, 4096 of both",
    "0, two loads",
    "0, two stores",
    "0, a load and a store",
    "0, three dimensions and three",
    "0, one dimension and three",
];

/// Every choice of an overlap's refusals, in the order in which they are tried.
fn refusals() -> Vec<String> {
    let chosen = |choice: u32| {
        let names = OVERLAP_REFUSALS.iter().enumerate();
        let names = names.filter(|(at, _)| choice >> at & 1 == 1);
        names.map(|(_, &(_, name))| name).collect::<Vec<_>>()
    };
    (1..1 << OVERLAP_REFUSALS.len())
        .map(|choice| chosen(choice).join(", "))
        .collect()
}

/// A number of iterations: few, none, the most, or too many.
fn iterations(random: &Random) -> u32 {
    match random.below(50) {
        0 => MAX_ITERATIONS,
        1..=6 => MAX_ITERATIONS + 1,
        7 | 8 => random.pick(&[u32::MAX, random.word() | 1 << 13]),
        9..=13 => 0,
        _ => random.word() % random.pick(&[4, 30, 300]),
    }
}

/// Settings of few iterations, once in a while with both refusals of their own.
fn short(random: &Random) -> Settings {
    let mut short = drawn(random);
    short.total = iterations(random);
    if random.once_in(10) {
        (short.mask, short.s0, short.store) = (4, 0, true);
    }
    short
}

/// Two settings, of which the second is often near the first: the same, moved, cut otherwise, or backwards.
fn pair(random: &Random) -> (Settings, Settings) {
    let (first, other) = (short(random), short(random));
    let [s0, s1, s2] = [first.s0, first.s1, first.s2];
    let moved = random.pick(&[random.word() % 4, s0, s1, s2, s0.wrapping_mul(3)]);
    let base = first.base.wrapping_add(moved);
    let length = s0.wrapping_mul(first.total.wrapping_sub(1));
    let second = match random.below(10) {
        0 => first,
        1..=3 => Settings {
            base,
            total: other.total,
            ..first
        },
        4 => Settings {
            mask: other.mask,
            d0: other.d0,
            d1: other.d1,
            ..first
        },
        5 => Settings {
            base: first.base.wrapping_add(length),
            s0: s0.wrapping_neg(),
            ..first
        },
        6 => Settings { base, ..other },
        _ => other,
    };
    (first, second)
}

/// The kinds of an overlap that is accepted, by the indices that are listed.
fn found_of(first: &Settings, second: &Settings, room: usize, listed: &[u32]) -> BTreeSet<String> {
    let of_first: Vec<u32> = addresses(first).collect();
    let of_second: Vec<u32> = addresses(second).collect();
    let met: HashSet<u32> = listed.iter().map(|&i| of_first[i as usize]).collect();
    let words: HashSet<u32> = of_second.iter().map(|address| address / 4).collect();
    let elsewhere = |&i: &u32| of_second.get(i as usize) != Some(&of_first[i as usize]);
    let meeting = of_second.iter().filter(|&address| met.contains(address));
    let totals = [first.total, second.total];
    let some = !totals.contains(&0);
    kinds_of(
        "0".to_string(),
        &[
            ("the first yields nothing", totals[0] == 0 && totals[1] > 0),
            ("the second yields nothing", totals[0] > 0 && totals[1] == 0),
            ("neither yields anything", totals == [0, 0]),
            ("no address met", some && met.is_empty()),
            ("every address met", some && listed.len() == of_first.len()),
            (
                "some addresses met",
                !met.is_empty() && listed.len() < of_first.len(),
            ),
            (
                "one between not met",
                listed.windows(2).any(|pair| pair[0] + 1 < pair[1]),
            ),
            ("another number in the second", listed.iter().any(elsewhere)),
            (
                "only its word met",
                of_first
                    .iter()
                    .any(|address| !met.contains(address) && words.contains(&(address / 4))),
            ),
            ("listed twice", listed.len() > met.len()),
            ("met twice", meeting.count() > met.len()),
            ("as much room as iterations", room == of_first.len()),
            ("more room", room > of_first.len()),
            ("4096 of the first", totals[0] == MAX_ITERATIONS),
            ("4096 of the second", totals[1] == MAX_ITERATIONS),
            ("4096 of both", totals == [MAX_ITERATIONS; 2]),
            ("two loads", !first.store && !second.store),
            ("two stores", first.store && second.store),
            ("a load and a store", first.store != second.store),
            (
                "three dimensions and three",
                (first.mask, second.mask) == (3, 3) && !met.is_empty(),
            ),
            (
                "one dimension and three",
                first.mask & 1 == 0 && second.mask == 3 && !met.is_empty(),
            ),
        ],
    )
}

/// What the call and the model answer and leave in the buffer is the same. The kinds: every refusal that applied, or what stood
/// out.
pub fn compare_overlap(
    random: &Random,
    call: impl Fn(&Settings, &Settings, &mut [u32]) -> Filled,
) -> Result<BTreeSet<String>, String> {
    let (first, second) = pair(random);
    let needed = first.total.min(MAX_ITERATIONS + 1) as usize;
    let room = room(random, needed);
    let mut out = Lent::words(random, room);
    let mut want = out.clone();
    let answer = call(&first, &second, out.lend());
    let model = models::address_at::overlap(&first, &second, want.lend());
    let input = (first, second, room);
    same("answer", &(answer, input), &(model, input))?;
    same("indices", &(&out, input), &(&want, input))?;
    let grounds = overlap_grounds(&first, &second, room);
    let names: Vec<&str> = grounds.iter().map(|ground| ground.1).collect();
    let too_long = [first.total, second.total].map(|total| total > MAX_ITERATIONS);
    Ok(match names[..] {
        [] => found_of(&first, &second, room, &want.lend()[..model.count]),
        ["3"] => kinds_of(
            names.join(", "),
            &[
                ("by the first", too_long == [true, false]),
                ("by the second", too_long == [false, true]),
                ("by both", too_long == [true, true]),
                (
                    "the first has one too many",
                    !too_long[1] && first.total == MAX_ITERATIONS + 1,
                ),
                (
                    "the second has one too many",
                    !too_long[0] && second.total == MAX_ITERATIONS + 1,
                ),
            ],
        ),
        ["7"] => {
            let mut all = vec![0; needed];
            let met = models::address_at::overlap(&first, &second, &mut all).count;
            kinds_of(
                names.join(", "),
                &[
                    ("one short", room + 1 == needed),
                    ("room for what is met", met <= room),
                ],
            )
        }
        _ => BTreeSet::from([names.join(", ")]),
    })
}

#[test]
fn overlap() {
    let mut kinds = refusals();
    kinds.extend(OVERLAPS.map(String::from));
    agree_in_all(60_000, &kinds, |random| {
        compare_overlap(random, linked::overlap)
    });
}

/// Every address by its number is the one that a run from the start writes, and is refused as the run is.
#[test]
fn each_address_of_a_run() {
    let kinds = ["mask 0", "mask 1", "mask 2", "mask 3", "10", "11"];
    agree(2_000, &kinds, |random| {
        let mut settings = drawn(random);
        settings.total = 1 + random.word() % random.pick(&[40, 3_000, 3_000, 70_000]);
        // A run that is refused leaves every word 0.
        let mut out = vec![0; settings.total as usize];
        let start = linked::addressgen_start();
        let ran = linked::addressgen_run(&settings, &start, out.len(), &mut out);
        for (i, address) in (0..).zip(out) {
            let want = AddressAt {
                refusal: ran.refusal,
                address,
            };
            let got = linked::address_at(&settings, i);
            same("address", &(got, settings, i), &(want, settings, i))?;
        }
        Ok(match ran.refusal {
            0 => format!("mask {}", settings.mask),
            refusal => refusal.to_string(),
        })
    });
}

/// Twenty million iterations made one after another, some in each line asked for by their numbers.
#[test]
fn a_long_walk() {
    let random = &Random::new(0);
    for (mask, _) in DIMENSIONS {
        let settings = Settings {
            base: random.word(),
            d0: 3_000,
            d1: 2_000,
            total: 20_000_000,
            s0: random.word(),
            s1: random.word(),
            s2: random.word(),
            mask,
            store: true,
        };
        for (i, address) in (0..).zip(addresses(&settings)).step_by(997) {
            let want = AddressAt {
                refusal: 0,
                address,
            };
            assert_eq!(linked::address_at(&settings, i), want, "{settings:?} {i}");
        }
    }
}

/// The settings of P9 to P11 of document 01, which differ in the mask.
fn p9(mask: u8) -> Settings {
    Settings {
        base: 0x1000,
        d0: 3,
        d1: 2,
        total: 8,
        s0: 4,
        s1: 0x20,
        s2: 0x100,
        mask,
        store: false,
    }
}

const P12: Settings = Settings {
    base: 8,
    d0: 0,
    d1: 0,
    total: 4,
    s0: 0xffff_fffc,
    s1: 0,
    s2: 0,
    mask: 0,
    store: false,
};

/// P9 with stride 0: a load that repeats its addresses.
fn repeating() -> Settings {
    Settings { s0: 0, ..p9(3) }
}

/// P9 to P12, and a load that repeats.
#[test]
fn addresses_of_examples() {
    let examples: [(Settings, &[u32]); 5] = [
        (
            p9(3),
            &[
                0x1000, 0x1004, 0x1008, 0x1020, 0x1024, 0x1028, 0x1100, 0x1104,
            ],
        ),
        (
            p9(1),
            &[
                0x1000, 0x1004, 0x1008, 0x1020, 0x1024, 0x1028, 0x1040, 0x1044,
            ],
        ),
        (
            p9(2),
            &[
                0x1000, 0x1004, 0x1008, 0x100c, 0x1010, 0x1014, 0x1018, 0x101c,
            ],
        ),
        (P12, &[8, 4, 0, 0xffff_fffc]),
        (
            repeating(),
            &[
                0x1000, 0x1000, 0x1000, 0x1020, 0x1020, 0x1020, 0x1100, 0x1100,
            ],
        ),
    ];
    for (settings, addresses) in examples {
        let at = |i| {
            let AddressAt { refusal, address } = linked::address_at(&settings, i);
            (refusal, address)
        };
        let all: Vec<(u8, u32)> = (0..settings.total).map(at).collect();
        let want: Vec<(u8, u32)> = addresses.iter().map(|&address| (0, address)).collect();
        assert_eq!(all, want);
        assert_eq!(at(settings.total), (8, 0));
    }
}

/// Address 40,000 of planes of 20 lines of 30, and a plane of 2^32, whose words are numbered by their addresses.
#[test]
fn far_addresses() {
    let planes = Settings {
        d0: 30,
        d1: 20,
        total: 65_536,
        s1: 0x200,
        s2: 0x1_0000,
        ..p9(3)
    };
    // 66 planes, 13 lines and 10 words.
    let far = 0x1000 + 66 * 0x1_0000 + 13 * 0x200 + 10 * 4;
    assert_eq!(linked::address_at(&planes, 40_000).address, far);
    let plane = Settings {
        base: 0,
        d0: 65_536,
        d1: 65_536,
        total: u32::MAX,
        s0: 1,
        s1: 65_536,
        s2: 7,
        mask: 3,
        store: true,
    };
    for i in [0, 65_535, 65_536, 65_537, 1 << 31, u32::MAX - 1] {
        let want = AddressAt {
            refusal: 0,
            address: i,
        };
        assert_eq!(linked::address_at(&plane, i), want);
    }
}

/// The indices that are listed in a buffer longer by two, which stay.
fn listed(first: &Settings, second: &Settings) -> Vec<u32> {
    let mut out = vec![u32::MAX; first.total as usize + 2];
    let Filled { refusal, count } = linked::overlap(first, second, &mut out);
    assert_eq!(refusal, 0);
    let past = out.split_off(count);
    assert!(past.iter().all(|&entry| entry == u32::MAX));
    out
}

#[test]
fn overlaps_of_examples() {
    let beside = Settings {
        base: 0x1002,
        ..p9(3)
    };
    let examples: [(Settings, Settings, &[u32]); 9] = [
        (p9(3), p9(1), &[0, 1, 2, 3, 4, 5]),
        (p9(3), p9(2), &[0, 1, 2]),
        (p9(2), p9(1), &[0, 1, 2]),
        (p9(3), p9(3), &[0, 1, 2, 3, 4, 5, 6, 7]),
        (P12, P12, &[0, 1, 2, 3]),
        (P12, p9(3), &[]),
        (p9(3), beside, &[]),
        (repeating(), p9(1), &[0, 1, 2, 3, 4, 5]),
        (p9(1), repeating(), &[0, 3]),
    ];
    for (first, second, indices) in examples {
        assert_eq!(listed(&first, &second), indices, "{first:?} {second:?}");
    }
}

/// The most iterations that each may have, and one more on either side.
#[test]
fn overlap_of_the_most() {
    let most = Settings {
        total: MAX_ITERATIONS,
        ..p9(3)
    };
    let more = Settings {
        total: MAX_ITERATIONS + 1,
        ..most
    };
    let all: Vec<u32> = (0..MAX_ITERATIONS).collect();
    assert_eq!(listed(&most, &most), all);
    let refused = Filled {
        refusal: 3,
        count: 0,
    };
    for (first, second) in [(most, more), (more, most), (more, more)] {
        let mut out = vec![7; 5_000];
        assert_eq!(linked::overlap(&first, &second, &mut out), refused);
        assert_eq!(out, [7; 5_000]);
    }
}
