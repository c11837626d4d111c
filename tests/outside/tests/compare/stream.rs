use outside::answers::{StreamAnswer, BROKEN, CLEAN, SEQ};
use outside::random::{agree_in_all, same, Random};
use outside::{linked, models, traces};
use std::collections::BTreeSet;

/// What a counter may lie behind: the one before it, skipped handshakes, many of them, or some and a 65,535 before these.
const BEHIND: [&str; 4] = ["", ", skipped", ", many skipped", ", skipped since 65535"];

/// What the random traces should reach with clears in them.
const CLEARS: [&str; 28] = [
    "1 0, clears",
    "2 4, clears before it",
    "2 2, clears before it",
    "2 100, clears before it",
    "2 4, clears past it",
    "2 2, clears past it",
    "2 100, clears past it",
    "refused 2 without clear",
    "refused 2 in a clear",
    "refused 2 beside a clear",
    "clear in the first cycle",
    "clear in the last cycle",
    "clear in every cycle",
    "clear with valid 0",
    "clear with valid 1 and ready 0",
    "clear with valid 1 and ready 1",
    "clear with valid 1 and ready 1, a counter",
    "stall, clear with valid 0",
    "stall, clear with another payload",
    "stall, clear, valid 0",
    "stall, clear, another payload",
    "stall, clear, the same",
    "stall, clear, clear",
    "clear with a stall's bits, valid 0",
    "clear with a stall's bits, another payload",
    "clear, stall",
    "counter, clear, the one due",
    "counter, clear, another",
];

fn clear(control: u8) -> bool {
    control & 4 != 0
}

fn carries(control: u8) -> bool {
    control & 7 == 3 && [3, 7, 11, 15].contains(&(control >> 4))
}

/// What each counter up to a cycle lies behind, where there is no clear between the two.
fn behind(control: &[u8], data: &[u32], end: usize) -> Vec<usize> {
    let mut marks: Vec<usize> = (0..end).collect();
    marks.retain(|&c| clear(control[c]) || control[c] & 3 == 3);
    let mut kinds = Vec::new();
    for part in marks.split(|&c| clear(control[c])) {
        let carriers: Vec<usize> = (0..part.len())
            .filter(|&i| carries(control[part[i]]))
            .collect();
        let kind = |pair: &[usize]| match pair[1] - pair[0] - 1 {
            0 => 0,
            _ if data[part[pair[0]]] as u16 == 65_535 => 3,
            1..=99 => 1,
            _ => 2,
        };
        kinds.extend(carriers.windows(2).map(kind));
    }
    kinds
}

/// What the counter lies behind that breaks rule seq or, in a clean trace, what is the rarest that a counter lies behind.
fn behind_which(control: &[u8], data: &[u32], seq: bool, answer: &StreamAnswer) -> &'static str {
    let kind = match (answer.verdict, answer.rule) {
        (CLEAN, _) if seq => behind(control, data, control.len()).into_iter().max(),
        (BROKEN, SEQ) => behind(control, data, answer.cycle as usize + 1).pop(),
        _ => None,
    };
    BEHIND[kind.unwrap_or(0)]
}

/// What is reached by a clear in this cycle, of those up to the end of what is judged.
fn at_clear(control: &[u8], data: &[u32], seq: bool, at: usize) -> Vec<&'static str> {
    let stall = |c: u8| c & 7 == 1;
    let differ = |one: usize, other: usize| {
        (control[one] >> 4, data[one]) != (control[other] >> 4, data[other])
    };
    let mut kinds = vec![match control[at] & 3 {
        0 | 2 => "clear with valid 0",
        1 => "clear with valid 1 and ready 0",
        _ if carries(control[at] & !4) => "clear with valid 1 and ready 1, a counter",
        _ => "clear with valid 1 and ready 1",
    }];
    let stalled = at > 0 && stall(control[at - 1]);
    if stalled && control[at] & 1 == 0 {
        kinds.push("stall, clear with valid 0");
    } else if stalled && differ(at - 1, at) {
        kinds.push("stall, clear with another payload");
    }
    if at + 1 < control.len() {
        let next = control[at + 1];
        match next & 1 {
            _ if clear(next) && stalled => kinds.push("stall, clear, clear"),
            _ if clear(next) => {}
            0 if stalled => kinds.push("stall, clear, valid 0"),
            _ if stalled && differ(at - 1, at + 1) => kinds.push("stall, clear, another payload"),
            _ if stalled => kinds.push("stall, clear, the same"),
            _ => {}
        }
        if control[at] & 3 == 1 && next & 5 == 0 {
            kinds.push("clear with a stall's bits, valid 0");
        } else if control[at] & 3 == 1 && next & 5 == 1 && differ(at, at + 1) {
            kinds.push("clear with a stall's bits, another payload");
        }
        if stall(next) {
            kinds.push("clear, stall");
        }
    }
    let near = |c: &usize| !clear(control[*c]);
    let last = (0..at)
        .rev()
        .take_while(near)
        .find(|&c| carries(control[c]));
    let mut after = (at + 1..control.len()).take_while(near);
    let next = after.find(|&c| carries(control[c]));
    if let (true, Some(last), Some(next)) = (seq, last, next) {
        let due = (data[last] as u16).wrapping_add(1);
        kinds.push(match data[next] as u16 == due {
            true => "counter, clear, the one due",
            false => "counter, clear, another",
        });
    }
    kinds
}

/// What is reached by the clears of a trace.
fn clears(control: &[u8], data: &[u32], seq: bool, answer: &StreamAnswer) -> Vec<String> {
    if answer.refusal == 2 {
        let kind = match control.iter().find(|&&c| c & 8 != 0) {
            Some(&c) if clear(c) => "in a clear",
            _ if control.iter().any(|&c| clear(c)) => "beside a clear",
            _ => "without clear",
        };
        return vec![format!("refused 2 {kind}")];
    }
    if answer.refusal != 0 || !control.iter().any(|&c| clear(c)) {
        return Vec::new();
    }
    let end = match answer.verdict {
        CLEAN => control.len(),
        _ => answer.cycle as usize,
    };
    let (control, past) = control.split_at(end);
    let cleared: Vec<usize> = (0..end).filter(|&c| clear(control[c])).collect();
    let mut kinds: BTreeSet<&str> = BTreeSet::new();
    // The first hundred of them are enough.
    for &at in cleared.iter().take(100) {
        kinds.extend(at_clear(control, data, seq, at));
    }
    if cleared.first() == Some(&0) {
        kinds.insert("clear in the first cycle");
    }
    if past.is_empty() && cleared.last() == Some(&(end - 1)) {
        kinds.insert("clear in the last cycle");
    }
    if past.is_empty() && cleared.len() == end && end > 1 {
        kinds.insert("clear in every cycle");
    }
    let mut kinds: Vec<String> = kinds.into_iter().map(String::from).collect();
    let verdict = format!("{} {}", answer.verdict, answer.rule);
    if answer.verdict == CLEAN {
        kinds.push(format!("{verdict}, clears"));
    } else {
        if !cleared.is_empty() {
            kinds.push(format!("{verdict}, clears before it"));
        }
        if past.iter().any(|&c| clear(c)) {
            kinds.push(format!("{verdict}, clears past it"));
        }
    }
    kinds
}

pub fn compare(
    random: &Random,
    call: impl Fn(&[u8], &[u32], bool) -> StreamAnswer,
) -> Result<BTreeSet<String>, String> {
    let (control, data) = traces::stream(random);
    let before = (control.clone(), data.clone());
    let seq = random.coin();
    let answer = call(&control, &data, seq);
    let model = models::stream::check_stream(&before.0, &before.1, seq);
    same("answer", &(answer, seq, &before), &(model, seq, &before))?;
    same("trace", &(control, data), &before)?;
    let which = behind_which(&before.0, &before.1, seq, &model);
    let (refusal, verdict, rule) = (model.refusal, model.verdict, model.rule);
    let mut kinds = BTreeSet::from([format!("{refusal} {verdict} {rule}{which}")]);
    kinds.extend(clears(&before.0, &before.1, seq, &model));
    Ok(kinds)
}

#[test]
fn check_stream() {
    let mut kinds = ["0 2 4", "0 2 2", "1 0 0", "2 0 0", "3 0 0"]
        .map(String::from)
        .to_vec();
    for which in BEHIND {
        kinds.push(format!("0 1 0{which}"));
        kinds.push(format!("0 2 {SEQ}{which}"));
    }
    kinds.extend(CLEARS.map(String::from));
    let kinds: Vec<&str> = kinds.iter().map(String::as_str).collect();
    agree_in_all(150_000, &kinds, |random| {
        compare(random, linked::check_stream)
    });
}

/// Streams drawn to be clean are clean, with and without clears.
#[test]
fn clean_streams() {
    agree_in_all(20_000, &["clears", "no clears"], |random| {
        let (control, data) = traces::clean_stream(random, traces::cycles(random).min(65_536));
        let answer = linked::check_stream(&control, &data, true);
        same("verdict", &(answer.refusal, answer.verdict), &(0, CLEAN))?;
        let clears = control.iter().filter(|&&c| clear(c)).count();
        same("clears", &(answer.clears as usize), &clears)?;
        let kind = if clears > 0 { "clears" } else { "no clears" };
        Ok(BTreeSet::from([kind.to_string()]))
    });
}

/// The random traces have handshakes and clear cycles of all sixteen strobes.
#[test]
fn strobes_of_traces() {
    let controls: Vec<u8> = (0..500)
        .flat_map(|seed| traces::stream(&Random::new(seed)).0)
        .collect();
    for bits in [3, 4, 5, 6, 7] {
        let such = controls.iter().filter(|&c| c & 7 == bits);
        let strobes: BTreeSet<u8> = such.map(|c| c >> 4).collect();
        assert_eq!(strobes, (0..16).collect(), "low bits {bits}");
    }
}

/// Between two counters that follow one another, a handshake of each strobe with another counter's data: under strb 3, 7, 11
/// and 15 it breaks rule seq, under any other it is skipped, and counts.
#[test]
fn each_strobe() {
    for strb in 0..16 {
        let control = [0xf3, strb << 4 | 3, 0xf3];
        let answer = linked::check_stream(&control, &[65_535, 9, 0], true);
        let got = (answer.verdict, answer.rule, answer.cycle, answer.handshakes);
        let carries = [3, 7, 11, 15].contains(&strb);
        let want = if carries {
            (BROKEN, SEQ, 1, 1)
        } else {
            (CLEAN, 0, 0, 3)
        };
        assert_eq!(got, want, "strb {strb}");
    }
}

/// Between a stall and a handshake with another payload and no counter that is due, a cycle of each control byte: without clear
/// it breaks a rule, unless it goes on with the stall; with clear and without bit 3 the trace is clean.
#[test]
fn each_byte_between() {
    for byte in 0..=255u8 {
        let control = [0xf3, 0xf1, byte, 0xf3];
        let answer = linked::check_stream(&control, &[5, 6, 6, 9], true);
        let (verdict, rule, cycle) = (answer.verdict, answer.rule, answer.cycle);
        let got = (answer.refusal, verdict, rule, cycle);
        let counts = (answer.handshakes, answer.clears);
        let want = match byte & 15 {
            8.. => ((2, 0, 0, 0), (0, 0)),
            4.. => ((0, CLEAN, 0, 0), (2, 1)),
            0 | 2 => ((0, BROKEN, 4, 2), (1, 0)),
            _ if byte >> 4 != 15 => ((0, BROKEN, 2, 2), (1, 0)),
            1 => ((0, BROKEN, 2, 3), (1, 0)),
            _ => ((0, BROKEN, SEQ, 3), (2, 0)),
        };
        assert_eq!((got, counts), want, "byte {byte}");
    }
}
