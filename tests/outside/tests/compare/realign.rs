//! Request T-10: both realigners against their models, each after the other, and every list of a few strobes.

use outside::answers::Filled;
use outside::lent::{room, Lent};
use outside::models::realign::{sink_grounds, source_grounds};
use outside::models::strobes::plan;
use outside::random::{agree_in_all, kinds_of, same, Random};
use outside::{linked, models};
use std::collections::BTreeSet;

/// What a source with each remainder should reach.
const SOURCES: [&str; 46] = [
    "[]",
    "[], no packets",
    "[], no packets and no room",
    "[], one packet",
    "[], two packets",
    "[], hundreds of packets",
    "[], 65535 packets",
    "[], as much room as packets",
    "[], room for one more",
    "[], more room",
    "[], an address above 3",
    "[], an address in the last word",
    "[12]",
    "[12], no packets and one word",
    "[12], no packets and strobes of 0",
    "[12], no packets and room",
    "[12], the first strobe alone",
    "[12], one strobe in the middle alone",
    "[12], the last strobe alone",
    "[12], a high bit in the first strobe alone",
    "[12], a high bit in the middle alone",
    "[12], a high bit in the last strobe alone",
    "[12], 0 in place of a strobe",
    "[12], 16 in place of a strobe",
    "[12], 255 in place of a strobe",
    "[12], no words",
    "[12], one word more",
    "[12], one word more, of strobe 0",
    "[12], one word more, of strobe 15",
    "[12], one word more at the start",
    "[12], one word fewer",
    "[12], one word fewer at the start",
    "[12], the plan of another remainder",
    "[12], the plan of one packet more",
    "[12], the plan of one packet fewer",
    "[12], every strobe 15",
    "[12], as many bytes named",
    "[12], 65535 packets",
    "[7]",
    "[7], one short",
    "[7], no room",
    "[7], 65535 packets",
    "[7, 12]",
    "[1, 12]",
    "[1, 7, 12]",
    "[3, 7, 12]",
];

/// What a source whose plan has null bytes should reach beside.
const NULL_BYTES: [&str; 5] = [
    "[], null bytes 0",
    "[], null bytes not 0 in the first word",
    "[], null bytes not 0 in the last word",
    "[12], 15 in place of a strobe",
    "[12], the strobes' bits in the other order",
];

/// What sources should reach with some remainder. With 1 comes 12: one of two unequal lengths is not the plan's.
const REFUSED_SOURCES: [&str; 22] = [
    "[1, 12], no packets",
    "[1, 12], the plan's strobes and one word more",
    "[1, 12], the plan's strobes and one word fewer",
    "[1, 12], the plan's strobes and no words",
    "[1, 12], the plan's words and one strobe more",
    "[1, 12], the plan's words and one strobe fewer",
    "[1, 12], the plan's words and no strobes",
    "[3]",
    "[3], 65536 packets",
    "[3], more packets",
    "[3, 7]",
    "[3, 7], one short",
    "[3, 12]",
    "[1, 3, 12]",
    "[1, 3, 7, 12]",
    "[3, 7, 12], 65536 packets",
    "[3, 7, 12], 2^32 - 1 packets",
    "[3, 7, 12], 2^32 - 1 packets and no words",
    "[3, 7, 12], 65536 more than planned",
    "[3, 7, 12], 65536 more than planned, which there is room for",
    "[3, 7, 12], 2^30 more than planned",
    "[3, 7, 12], 2^30 more than planned, which there is room for",
];

/// What a sink with each remainder should reach.
const SINKS: [&str; 28] = [
    "[]",
    "[], no packets",
    "[], no packets and no room",
    "[], no packets and room",
    "[], one packet",
    "[], two packets",
    "[], hundreds of packets",
    "[], 65535 packets",
    "[], both rooms exact",
    "[], more room for words",
    "[], more room for strobes",
    "[], room for one more in both",
    "[], an address above 3",
    "[], an address in the last word",
    "[7]",
    "[7], words one short",
    "[7], strobes one short",
    "[7], both one short",
    "[7], words short and strobes exact",
    "[7], words short and strobes long",
    "[7], words exact and strobes short",
    "[7], words long and strobes short",
    "[7], no room for words",
    "[7], no room for strobes",
    "[7], no room",
    "[7], 65535 packets",
    "[3]",
    "[3, 7]",
];

/// What sinks should reach with some remainder.
const REFUSED_SINKS: [&str; 5] = [
    "[3], 65536 packets",
    "[3], more packets",
    "[3], both rooms exact",
    "[3, 7], 65536 packets",
    "[3, 7], no room",
];

/// These kinds with each of these remainders.
fn with_remainders(remainders: std::ops::Range<u32>, kinds: &[&str]) -> Vec<String> {
    let with = |m| kinds.iter().map(move |kind| format!("{m}: {kind}"));
    remainders.flat_map(with).collect()
}

/// The kinds of a case with this remainder, of which some are to be reached with any.
fn by_remainder(m: u32, kinds: BTreeSet<String>, with_any: &[&str]) -> BTreeSet<String> {
    let named = |kind: String| match with_any.contains(&kind.as_str()) {
        true => kind,
        false => format!("{m}: {kind}"),
    };
    kinds.into_iter().map(named).collect()
}

fn address(random: &Random) -> u32 {
    random.pick(&[
        random.word() % 4,
        random.word(),
        u32::MAX - random.word() % 4,
    ])
}

/// A number of packets: few, some hundreds, the most, or a few too many.
fn number(random: &Random) -> u32 {
    match random.below(300) {
        0 | 1 => 65_535,
        2 | 3 => 65_536 + random.pick(&[0, 0, 1, 2]),
        4..=13 => random.word() % 700,
        _ => random.word() % random.pick(&[3, 9]),
    }
}

/// What a source is given beside its output.
#[derive(Clone, PartialEq, Debug)]
struct Given {
    address: u32,
    n: u32,
    strobes: Vec<u8>,
    words: Vec<u32>,
}

/// A strobe's place: the first, the last, or any.
fn place(random: &Random, strobes: &[u8]) -> usize {
    random.pick(&[0, strobes.len() - 1, random.below(strobes.len())])
}

/// Changes strobes, or how many they are, in one of many ways.
fn damage(random: &Random, strobes: &mut Vec<u8>) {
    let other = random.pick(&[0, 15, 16, 255, random.byte() % 16, random.byte()]);
    if strobes.is_empty() {
        strobes.push(other);
        return;
    }
    let (at, to) = (place(random, strobes), place(random, strobes));
    match random.below(13) {
        0 => strobes[at] ^= 1 << random.below(4),
        1 | 2 => strobes[at] ^= 16 << random.below(4),
        3 | 4 => strobes[at] = other,
        5 => strobes.push(other),
        6 => strobes.insert(0, other),
        7 => drop(strobes.pop()),
        8 => drop(strobes.remove(0)),
        9 => strobes.swap(at, to),
        10 => strobes.fill(15),
        11 => strobes.iter_mut().for_each(|s| *s = s.reverse_bits() >> 4),
        _ => {
            // One byte fewer is named in one place, and one more in another.
            strobes[at] &= strobes[at].wrapping_sub(1);
            strobes[to] |= strobes[to].wrapping_add(1) & 15;
        }
    }
}

/// The plan's strobes or others, words, most often as many, and how much room the packets need that are planned.
fn given(random: &Random) -> (Given, usize) {
    let (address, mut n) = (address(random), number(random));
    let asked = n as usize;
    let planned = match random.below(16) {
        0 => plan(random.word(), n),
        1 => plan(address, n + 1),
        2 => plan(address, n.saturating_sub(1)),
        3 => plan(random.word(), n + random.word() % 3),
        _ => plan(address, n),
    };
    let mut strobes: Vec<u8> = planned.collect();
    match random.below(20) {
        0 => strobes.clear(),
        1..=8 => damage(random, &mut strobes),
        _ => {}
    }
    let mut words = random.words(strobes.len());
    if random.once_in(4) {
        let pairs = words.iter_mut().zip(&strobes);
        pairs.for_each(|(word, &strobe)| *word = with_null_bytes_0(*word, strobe));
    }
    match random.below(40) {
        0 => words.clear(),
        1 => words.push(random.word()),
        2 => drop(words.pop()),
        3 => strobes.clear(),
        4 => strobes.push(random.pick(&[0, 15, 16])),
        5 => drop(strobes.pop()),
        _ => {}
    }
    if n < 700 && random.once_in(12) {
        n = random.pick(&[n + 65_536, n + (1 << 30), u32::MAX, random.word() | 1 << 17]);
    }
    let given = Given {
        address,
        n,
        strobes,
        words,
    };
    (given, asked)
}

/// A word with 0 in each byte whose strobe is 0.
fn with_null_bytes_0(word: u32, strobe: u8) -> u32 {
    let mut bytes = word.to_le_bytes();
    for (j, byte) in bytes.iter_mut().enumerate() {
        if strobe & 1 << j == 0 {
            *byte = 0;
        }
    }
    u32::from_le_bytes(bytes)
}

/// What stands out in a number of packets that is not refused.
fn found_in_number(n: usize) -> [(&'static str, bool); 4] {
    [
        ("one packet", n == 1),
        ("two packets", n == 2),
        ("hundreds of packets", (100..700).contains(&n)),
        ("65535 packets", n == 65_535),
    ]
}

/// What stands out in an address.
fn found_in_address(address: u32) -> [(&'static str, bool); 2] {
    [
        ("an address above 3", address > 3),
        ("an address in the last word", address > u32::MAX - 4),
    ]
}

/// The kinds of packets that are accepted.
fn accepted(given: &Given, room: usize) -> BTreeSet<String> {
    let n = given.n as usize;
    let mut found = vec![
        ("no packets", n == 0),
        ("no packets and no room", n == 0 && room == 0),
        ("as much room as packets", n > 0 && room == n),
        ("room for one more", n > 0 && room == n + 1),
        ("more room", n > 0 && room > n + 1),
    ];
    found.extend(found_in_number(n));
    found.extend(found_in_address(given.address));
    if given.words.len() > n {
        let pairs = given.words.iter().zip(&given.strobes);
        let junk: Vec<bool> = pairs
            .map(|(&word, &strobe)| with_null_bytes_0(word, strobe) != word)
            .collect();
        found.push(("null bytes 0", !junk.contains(&true)));
        found.push(("null bytes not 0 in the first word", junk[0]));
        found.push(("null bytes not 0 in the last word", junk[n]));
    }
    kinds_of("[]".to_string(), &found)
}

/// The kinds of strobes that are not the plan's.
fn not_planned(given: &Given, room: usize) -> BTreeSet<String> {
    let Given {
        address,
        n,
        ref strobes,
        ..
    } = *given;
    let of = |address, n| plan(address, n).collect::<Vec<u8>>();
    let planned = of(address, n);
    let kind = "[12]".to_string();
    if n == 0 {
        return kinds_of(
            kind,
            &[
                ("no packets and one word", strobes.len() == 1),
                (
                    "no packets and strobes of 0",
                    strobes.iter().all(|&s| s == 0),
                ),
                ("no packets and room", room > 0),
            ],
        );
    }
    let mut found = vec![
        ("no words", strobes.is_empty()),
        (
            "one word fewer",
            n > 1 && planned.split_last().is_some_and(|p| p.1 == strobes),
        ),
        (
            "one word fewer at the start",
            n > 1 && planned.split_first().is_some_and(|p| p.1 == strobes),
        ),
        (
            "one word more at the start",
            strobes.split_first().is_some_and(|s| s.1 == planned),
        ),
        (
            "the plan of one packet more",
            *strobes == of(address, n + 1),
        ),
        (
            "the plan of one packet fewer",
            n > 1 && *strobes == of(address, n - 1),
        ),
        (
            "the plan of another remainder",
            (1..4).any(|more| *strobes == of(address.wrapping_add(more), n)),
        ),
        (
            "every strobe 15",
            !strobes.is_empty() && strobes.iter().all(|&s| s == 15),
        ),
        (
            "as many bytes named",
            strobes.iter().map(|s| (s % 16).count_ones()).sum::<u32>() == 4 * n,
        ),
        ("65535 packets", n == 65_535),
    ];
    if let Some((last, others)) = strobes.split_last() {
        let more = others == planned;
        found.push(("one word more", more));
        found.push(("one word more, of strobe 0", more && *last == 0));
        found.push(("one word more, of strobe 15", more && *last == 15));
    }
    if strobes.len() == planned.len() {
        let pairs = strobes.iter().zip(&planned);
        let wrong: Vec<usize> = pairs
            .enumerate()
            .filter_map(|(at, (got, want))| (got != want).then_some(at))
            .collect();
        if let [at] = wrong[..] {
            let high = (strobes[at] ^ planned[at]) % 16 == 0;
            let last = strobes.len() - 1;
            let middle = at > 0 && at < last;
            found.extend([
                ("the first strobe alone", at == 0 && last > 0),
                ("one strobe in the middle alone", middle),
                ("the last strobe alone", at == last && last > 0),
                ("a high bit in the first strobe alone", high && at == 0),
                ("a high bit in the middle alone", high && middle),
                ("a high bit in the last strobe alone", high && at == last),
                ("0 in place of a strobe", strobes[at] == 0),
                ("15 in place of a strobe", strobes[at] == 15),
                ("16 in place of a strobe", strobes[at] == 16),
                ("255 in place of a strobe", strobes[at] == 255),
            ]);
        }
        let mut pairs = strobes.iter().zip(&planned);
        found.push((
            "the strobes' bits in the other order",
            pairs.all(|(got, want)| *got == want.reverse_bits() >> 4),
        ));
    }
    kinds_of(kind, &found)
}

/// The kinds of a number of words that is not that of the strobes.
fn unequal(given: &Given) -> Vec<(&'static str, bool)> {
    let planned: Vec<u8> = plan(given.address, given.n).collect();
    let (words, strobes) = (given.words.len(), &given.strobes);
    let some = given.n > 0;
    let right_strobes = some && *strobes == planned;
    let right_words = some && words == planned.len();
    let one_more = strobes.split_last().is_some_and(|s| s.1 == planned);
    let one_fewer = planned.split_last().is_some_and(|p| p.1 == strobes);
    vec![
        ("no packets", !some),
        (
            "the plan's strobes and one word more",
            right_strobes && words == planned.len() + 1,
        ),
        (
            "the plan's strobes and one word fewer",
            right_strobes && words + 1 == planned.len(),
        ),
        (
            "the plan's strobes and no words",
            right_strobes && words == 0,
        ),
        (
            "the plan's words and one strobe more",
            right_words && one_more,
        ),
        (
            "the plan's words and one strobe fewer",
            right_words && one_fewer,
        ),
        (
            "the plan's words and no strobes",
            right_words && strobes.is_empty(),
        ),
    ]
}

/// The kinds of more packets than there may be, of which fewer are planned.
fn more_than_planned(given: &Given, room: usize) -> Vec<(&'static str, bool)> {
    let Given {
        address,
        n,
        ref strobes,
        ..
    } = *given;
    let planned = |more: u32| n > more && plan(address, n - more).eq(strobes.iter().copied());
    let fits = |more: u32| planned(more) && room >= (n - more) as usize;
    vec![
        ("65536 packets", n == 65_536),
        ("2^32 - 1 packets", n == u32::MAX),
        (
            "2^32 - 1 packets and no words",
            n == u32::MAX && strobes.is_empty(),
        ),
        ("65536 more than planned", planned(1 << 16)),
        (
            "65536 more than planned, which there is room for",
            fits(1 << 16),
        ),
        ("2^30 more than planned", planned(1 << 30)),
        (
            "2^30 more than planned, which there is room for",
            fits(1 << 30),
        ),
    ]
}

/// What the call and the model answer and leave in the buffer is the same. The kinds: every refusal that applied, and
/// what stood out.
pub fn compare_source(
    random: &Random,
    call: impl Fn(u32, u32, &[u32], &[u8], &mut [u32]) -> Filled,
) -> Result<BTreeSet<String>, String> {
    let (given, asked) = given(random);
    let before = given.clone();
    let room = room(random, asked);
    let mut out = Lent::words(random, room);
    let mut want = out.clone();
    let Given {
        address,
        n,
        ref strobes,
        ref words,
    } = given;
    let answer = call(address, n, words, strobes, out.lend());
    let model = models::realign::source(address, n, words, strobes, want.lend());
    same("answer", &(answer, room, &given), &(model, room, &before))?;
    same("packets", &(&out, room, &given), &(&want, room, &before))?;
    let grounds = source_grounds(address, n, words, strobes, room);
    let kind = format!("{grounds:?}");
    let one_short = ("one short", room + 1 == n as usize);
    let kinds = match grounds[..] {
        [] => accepted(&given, room),
        [12] => not_planned(&given, room),
        [1, 12] => kinds_of(kind, &unequal(&given)),
        [7] => kinds_of(
            kind,
            &[
                one_short,
                ("no room", room == 0),
                ("65535 packets", n == 65_535),
            ],
        ),
        [3] => kinds_of(
            kind,
            &[("65536 packets", n == 65_536), ("more packets", n > 65_536)],
        ),
        [3, 7] => kinds_of(kind, &[one_short]),
        [3, 7, 12] => kinds_of(kind, &more_than_planned(&given, room)),
        _ => BTreeSet::from([kind]),
    };
    Ok(by_remainder(address % 4, kinds, &REFUSED_SOURCES))
}

#[test]
fn realign_source() {
    let mut kinds = with_remainders(0..4, &SOURCES);
    kinds.extend(with_remainders(1..4, &NULL_BYTES));
    kinds.extend(REFUSED_SOURCES.map(String::from));
    agree_in_all(60_000, &kinds, |random| {
        compare_source(random, linked::realign_source)
    });
}

/// Rooms for words and strobes, often the same.
fn rooms(random: &Random, needed: usize) -> [usize; 2] {
    let one = room(random, needed);
    match random.below(3) {
        0 => [one; 2],
        1 => [one, needed + random.below(3)],
        _ => [needed + random.below(3), one],
    }
}

/// What stands out in a sink's rooms for words and strobes, and in its packets.
fn found_in_sink(
    grounds: &[u8],
    address: u32,
    n: usize,
    rooms: [usize; 2],
) -> Vec<(&'static str, bool)> {
    let needed = plan(address, n as u32).len();
    let short = rooms.map(|room| room < needed);
    let exact = rooms.map(|room| room == needed);
    let long = rooms.map(|room| room > needed);
    let one_short = rooms.map(|room| room + 1 == needed);
    let none = rooms.map(|room| room == 0);
    match grounds {
        [] => {
            let mut found = vec![
                ("no packets", n == 0),
                ("no packets and no room", n == 0 && none == [true; 2]),
                ("no packets and room", n == 0 && long == [true; 2]),
                ("both rooms exact", n > 0 && exact == [true; 2]),
                ("more room for words", n > 0 && long == [true, false]),
                ("more room for strobes", n > 0 && long == [false, true]),
                (
                    "room for one more in both",
                    n > 0 && rooms == [needed + 1; 2],
                ),
            ];
            found.extend(found_in_number(n));
            found.extend(found_in_address(address));
            found
        }
        [7] => vec![
            ("words one short", one_short == [true, false]),
            ("strobes one short", one_short == [false, true]),
            ("both one short", one_short == [true; 2]),
            ("words short and strobes exact", short[0] && exact[1]),
            ("words short and strobes long", short[0] && long[1]),
            ("words exact and strobes short", exact[0] && short[1]),
            ("words long and strobes short", long[0] && short[1]),
            ("no room for words", none == [true, false]),
            ("no room for strobes", none == [false, true]),
            ("no room", none == [true; 2]),
            ("65535 packets", n == 65_535),
        ],
        [3] => vec![
            ("65536 packets", n == 65_536),
            ("more packets", n > 65_536),
            ("both rooms exact", exact == [true; 2]),
        ],
        _ => vec![
            ("65536 packets", n == 65_536),
            ("no room", none == [true; 2]),
        ],
    }
}

/// What the call and the model answer and leave in both buffers is the same. The kinds are as those of a source.
pub fn compare_sink(
    random: &Random,
    call: impl Fn(u32, &[u32], &mut [u32], &mut [u8]) -> Filled,
) -> Result<BTreeSet<String>, String> {
    let (address, n) = (address(random), number(random));
    let packets = random.words(n as usize);
    let before = packets.clone();
    let rooms = rooms(random, plan(address, n).len());
    let mut out = (Lent::words(random, rooms[0]), Lent::bytes(random, rooms[1]));
    let mut want = out.clone();
    let answer = call(address, &packets, out.0.lend(), out.1.lend());
    let model = models::realign::sink(address, &packets, want.0.lend(), want.1.lend());
    let input = (address, n, rooms);
    same(
        "answer",
        &(answer, input, &packets),
        &(model, input, &before),
    )?;
    same("strobes", &(&out.1, input), &(&want.1, input))?;
    same("words", &(&out.0, input), &(&want.0, input))?;
    let grounds = sink_grounds(address, &packets, rooms);
    let found = found_in_sink(&grounds, address, n as usize, rooms);
    let kinds = kinds_of(format!("{grounds:?}"), &found);
    Ok(by_remainder(address % 4, kinds, &REFUSED_SINKS))
}

#[test]
fn realign_sink() {
    let mut kinds = with_remainders(0..4, &SINKS);
    kinds.extend(REFUSED_SINKS.map(String::from));
    agree_in_all(60_000, &kinds, |random| {
        compare_sink(random, linked::realign_sink)
    });
}

/// The packets in words whose strobes are the plan's.
fn sourced(address: u32, n: u32, words: &[u32], strobes: &[u8]) -> Vec<u32> {
    let mut packets = vec![0; n as usize];
    let filled = linked::realign_source(address, n, words, strobes, &mut packets);
    assert_eq!((filled.refusal, filled.count), (0, packets.len()));
    packets
}

/// The words that packets fill, and their strobes.
fn sunk(address: u32, packets: &[u32]) -> (Vec<u32>, Vec<u8>) {
    let room = packets.len() + 1;
    let (mut words, mut strobes) = (vec![0; room], vec![0; room]);
    let filled = linked::realign_sink(address, packets, &mut words, &mut strobes);
    assert_eq!(filled.refusal, 0);
    words.truncate(filled.count);
    strobes.truncate(filled.count);
    (words, strobes)
}

/// Addresses of every remainder, each with few packets, with the most, and with some hundreds.
fn rows(random: &Random, each: impl Fn(u32, u32)) {
    for m in 0..4 {
        let drawn = (0..2_000).map(|_| random.word() % random.pick(&[20, 700]));
        for n in [0, 1, 2, 3, 65_534, 65_535].into_iter().chain(drawn) {
            each(random.word() & !3 | m, n);
        }
    }
}

/// A source gives the packets that a sink has taken, from words whose strobes are those that the plan's call writes.
#[test]
fn source_after_sink() {
    let random = &Random::new(0);
    rows(random, |address, n| {
        let packets = random.words(n as usize);
        let (words, strobes) = sunk(address, &packets);
        assert_eq!(sourced(address, n, &words, &strobes), packets);
        let mut planned = vec![0; words.len()];
        let filled = linked::strobe_plan(address, n, &mut planned);
        assert_eq!((filled.refusal, filled.count), (0, words.len()));
        assert_eq!(strobes, planned);
    });
}

/// A sink makes the words that a source has read, with null bytes 0, which give the same packets, and their strobes.
#[test]
fn sink_after_source() {
    let random = &Random::new(0);
    rows(random, |address, n| {
        let strobes: Vec<u8> = plan(address, n).collect();
        let words = random.words(strobes.len());
        let packets = sourced(address, n, &words, &strobes);
        let read = words.iter().zip(&strobes);
        let read: Vec<u32> = read
            .map(|(&word, &strobe)| with_null_bytes_0(word, strobe))
            .collect();
        assert_eq!(sourced(address, n, &read, &strobes), packets);
        assert_eq!(sunk(address, &packets), (read, strobes));
    });
}

/// Two packets from each remainder on.
#[test]
fn two_packets_realigned() {
    let packets = [0x4433_2211, 0x8877_6655];
    // The words with bytes of 0xee in place of null bytes, the words that a sink makes, and the strobes.
    let examples: [(&[u32], &[u32], &[u8]); 4] = [
        (&packets, &packets, &[15, 15]),
        (
            &[0x3322_11ee, 0x7766_5544, 0xeeee_ee88],
            &[0x3322_1100, 0x7766_5544, 0x0000_0088],
            &[14, 15, 1],
        ),
        (
            &[0x2211_eeee, 0x6655_4433, 0xeeee_8877],
            &[0x2211_0000, 0x6655_4433, 0x0000_8877],
            &[12, 15, 3],
        ),
        (
            &[0x11ee_eeee, 0x5544_3322, 0xee88_7766],
            &[0x1100_0000, 0x5544_3322, 0x0088_7766],
            &[8, 15, 7],
        ),
    ];
    for (m, (words, made, strobes)) in (0..).zip(examples) {
        for address in [m, 0x1000 + m, u32::MAX - 3 + m] {
            assert_eq!(sourced(address, 2, words, strobes), packets);
            assert_eq!(sunk(address, &packets), (made.to_vec(), strobes.to_vec()));
        }
    }
}

/// Every list of so many strobes of a choice.
fn lists(choice: &[u8], length: usize) -> Vec<Vec<u8>> {
    let mut lists = vec![Vec::new()];
    for _ in 0..length {
        let longer = |list: &Vec<u8>| {
            let with = |&strobe| [&list[..], &[strobe]].concat();
            choice.iter().map(with).collect::<Vec<_>>()
        };
        lists = lists.iter().flat_map(longer).collect();
    }
    lists
}

/// Up to four packets with every list of up to two strobes of any byte, of three and four up to 16, and of five from a
/// choice: the plan alone is accepted.
#[test]
fn every_short_list_of_strobes() {
    let bytes: Vec<u8> = (0..=255).collect();
    let few = [0, 1, 3, 7, 8, 12, 14, 15, 16, 31];
    let choices: [&[u8]; 6] = [&[], &bytes, &bytes, &bytes[..17], &bytes[..17], &few];
    let words = Random::new(0).words(choices.len());
    for (length, choice) in choices.into_iter().enumerate() {
        let lists = lists(choice, length);
        let words = &words[..length];
        for (address, n) in (0..20).map(|case| (case % 4, case / 4)) {
            let mut accepted = Vec::new();
            for strobes in &lists {
                let (mut out, mut want) = ([7; 5], [7; 5]);
                let answer = linked::realign_source(address, n, words, strobes, &mut out);
                let model = models::realign::source(address, n, words, strobes, &mut want);
                assert_eq!((answer, out), (model, want), "{address} {n} {strobes:?}");
                if answer.refusal == 0 {
                    accepted.extend(strobes);
                }
            }
            let planned = plan(address, n);
            match planned.len() == length {
                true => assert!(planned.eq(accepted), "{address} {n}"),
                false => assert!(accepted.is_empty(), "{address} {n}"),
            }
        }
    }
}

/// A plan with any one bit changed in any one strobe is refused, and nothing is written.
#[test]
fn each_bit_of_a_plan() {
    let random = &Random::new(0);
    let refused = Filled {
        refusal: 12,
        count: 0,
    };
    for (address, n) in (0..4).flat_map(|m| (1..=70).chain([65_535]).map(move |n| (m, n))) {
        let mut strobes: Vec<u8> = plan(address, n).collect();
        let words = random.words(strobes.len());
        let mut out = vec![7; n as usize];
        let places: Vec<usize> = match n {
            65_535 => (0..20).map(|_| place(random, &strobes)).collect(),
            _ => (0..strobes.len()).collect(),
        };
        for (at, bit) in places
            .iter()
            .flat_map(|&at| (0..8).map(move |bit| (at, bit)))
        {
            strobes[at] ^= 1 << bit;
            let answer = linked::realign_source(address, n, &words, &strobes, &mut out);
            strobes[at] ^= 1 << bit;
            assert_eq!(answer, refused, "{address} {n} {at} {bit}");
        }
        assert!(out.iter().all(|&entry| entry == 7));
    }
}

/// Up to three packets with every room of up to five entries. A sink has two.
#[test]
fn every_small_room() {
    let lent = Random::new(0).words(4);
    for (address, n) in (0..16).map(|case| (case % 4, case / 4)) {
        let strobes: Vec<u8> = plan(address, n).collect();
        let (packets, words) = (&lent[..n as usize], &lent[..strobes.len()]);
        for room in 0..=5 {
            let mut out = [7; 5];
            let mut want = out;
            let given = linked::realign_source(address, n, words, &strobes, &mut out[..room]);
            let model = models::realign::source(address, n, words, &strobes, &mut want[..room]);
            assert_eq!((given, out), (model, want), "{address} {n} {room}");
            for other in 0..=5 {
                let mut out = ([7; 5], [7; 5]);
                let mut want = out;
                let made =
                    linked::realign_sink(address, packets, &mut out.0[..room], &mut out.1[..other]);
                let model = models::realign::sink(
                    address,
                    packets,
                    &mut want.0[..room],
                    &mut want.1[..other],
                );
                assert_eq!((made, out), (model, want), "{address} {n} {room} {other}");
            }
        }
    }
}
