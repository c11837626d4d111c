use outside::answers::{Monitor, BROKEN, CLEAN, SEQ};
use outside::models::{monitor, stream, MAX_CYCLES};
use outside::random::{agree_in_all, same, Compared, Random};
use outside::traces::{self, Burst, Clears};
use outside::{linked, states};
use std::collections::BTreeSet;

/// What the random cuttings should reach, by the numbers of refusals and rules, and of the verdict and the rule at the end.
const REACHED: [&str; 63] = [
    "1, clean",
    "1, broken",
    "2, clean",
    "2, clean, a breach before the bit",
    "2, clean, a breach from the bit on",
    "2, broken",
    "2, in a clear",
    "3, clean",
    "3, broken",
    "empty, fresh",
    "empty, clean",
    "empty, cleared",
    "empty, stalled",
    "empty, counted",
    "empty, stalled and counted",
    "empty, broken",
    "broken, more cycles",
    "broken, more clears",
    "broken with clears, more clears",
    "a burst of clears alone",
    "clears before a breach",
    "clears after a breach",
    "counters with seq off",
    "rule 4 inside",
    "rule 2 inside",
    "rule 100 inside",
    "stall across a cut, held",
    "stall across a cut, taken",
    "stall across a cut, cleared",
    "stall across a cut, cleared, then valid 0",
    "stall across a cut, cleared, then another payload",
    "clear before a cut, no valid",
    "clear before a cut, a stall's bits, then valid 0",
    "clear before a cut, a stall's bits, then another payload",
    "clear before a cut, a handshake's bits",
    "stall across a cut, rule 4",
    "stall across a cut, rule 2",
    "stall across a cut, rule 100",
    "counter across a cut, right",
    "counter across a cut, right, skipped before it",
    "counter across a cut, right, skipped after it",
    "counter across a cut, right, skipped on both sides",
    "counter across a cut, wrong",
    "counter across a cut, wrong, skipped before it",
    "counter across a cut, wrong, skipped after it",
    "counter across a cut, wrong, skipped on both sides",
    "counter across a cut, cleared",
    "counter across a cut, cleared, then another",
    "65535 before a cut, right",
    "65535 before a cut, wrong",
    "the end, 1 0",
    "the end, 1 0, cleared",
    "the end, 1 0, too long for check_stream",
    "the end, 2 2",
    "the end, 2 2, cleared",
    "the end, 2 2, too long for check_stream",
    "the end, 2 4",
    "the end, 2 4, cleared",
    "the end, 2 4, too long for check_stream",
    "the end, 2 100",
    "the end, 2 100, cleared",
    "the end, 2 100, too long for check_stream",
    "the end, at the most cycles",
];

/// A record at the start of a stream, and what it is fed: a trace of any kind cut into bursts, with refused ones between them.
fn session(random: &Random) -> (Monitor, Vec<Burst>) {
    let (control, data) = traces::stream(random);
    let mut bursts = Vec::new();
    for burst in traces::cut(random, &control, &data) {
        if random.once_in(6) {
            let mut spoiled = burst.clone();
            traces::spoil(random, &mut spoiled);
            bursts.push(spoiled);
        }
        bursts.push(burst);
    }
    (states::started_monitor(random), bursts)
}

fn first_reserved(control: &[u8]) -> Option<usize> {
    control.iter().position(|c| c & 8 != 0)
}

fn clears(control: &[u8]) -> bool {
    control.iter().any(|c| c & 4 != 0)
}

/// The bursts that should not be refused, one after another.
fn taken(start: &Monitor, bursts: &[Burst]) -> Burst {
    let room = (u32::MAX - start.cycles) as usize;
    let (mut controls, mut words) = Burst::default();
    for (control, data) in bursts {
        let fits = controls.len() + control.len() <= room;
        if fits && control.len() == data.len() && first_reserved(control).is_none() {
            controls.extend(control);
            words.extend(data);
        }
    }
    (controls, words)
}

/// What a record says of its trace: the cycles, the verdict, the rule, the cycle, the handshakes and the clears.
type Said = (u32, u8, u8, u32, u32, u32);

fn said(record: &Monitor) -> Said {
    let (verdict, rule) = (record.verdict, record.rule);
    let (cycle, handshakes) = (record.cycle, record.handshakes);
    let (cycles, clears) = (record.cycles, record.clears);
    (cycles, verdict, rule, cycle, handshakes, clears)
}

/// What it should say by the model of whole traces, and by the linked one as far as that goes. Cycles before the trace were idle.
fn whole(start: &Monitor, (control, data): &Burst) -> Result<Said, String> {
    let answer = stream::judged(control, data, start.seq);
    if control.len() <= MAX_CYCLES {
        let linked = linked::check_stream(control, data, start.seq);
        same("check_stream", &linked, &answer)?;
    }
    let cycles = start.cycles + control.len() as u32;
    let cycle = match answer.verdict {
        BROKEN => start.cycles + answer.cycle,
        _ => 0,
    };
    let (verdict, rule) = (answer.verdict, answer.rule);
    let (handshakes, clears) = (answer.handshakes, answer.clears);
    Ok((cycles, verdict, rule, cycle, handshakes, clears))
}

/// One burst, fed to a record by the call and by the model. The memory beside the record stays as it was.
pub fn fed(
    record: &mut Monitor,
    (control, data): &Burst,
    call: impl Fn(&mut Monitor, &[u8], &[u32]) -> u8,
) -> Result<u8, String> {
    let mut lent = [*record; 3];
    let mut want = lent;
    let refusal = call(&mut lent[1], control, data);
    let model = monitor::feed(&mut want[1], control, data);
    let input = (*record, control, data);
    same("fed", &(refusal, lent, input), &(model, want, input))?;
    *record = lent[1];
    Ok(refusal)
}

/// A burst and what it was fed to: the record, and the trace before it.
struct Step<'a> {
    before: &'a Monitor,
    seen: (&'a [u8], &'a [u32]),
    burst: &'a Burst,
    refusal: u8,
    after: &'a Monitor,
}

impl Step<'_> {
    /// The rule by which the burst broke a clean record, and in which of its cycles.
    fn breach(&self) -> Option<(u8, usize)> {
        let broken = self.before.verdict == CLEAN && self.after.verdict == BROKEN;
        broken.then(|| {
            let cycle = self.after.cycle - self.before.cycles;
            (self.after.rule, cycle as usize)
        })
    }

    /// How a refused burst is refused; with a reserved bit, whether it has a breach too.
    fn refused(&self) -> String {
        let (control, data) = self.burst;
        let breaks = |control: &[u8]| {
            let mut record = *self.before;
            monitor::feed(&mut record, control, &data[..control.len()]);
            record.verdict == BROKEN
        };
        let kind = match self.before.verdict {
            BROKEN => "broken",
            _ if self.refusal != 2 => "clean",
            _ if breaks(&control[..first_reserved(control).unwrap()]) => {
                "clean, a breach before the bit"
            }
            _ if breaks(&control.iter().map(|c| c & 0xf7).collect::<Vec<u8>>()) => {
                "clean, a breach from the bit on"
            }
            _ => "clean",
        };
        format!("{}, {kind}", self.refusal)
    }

    /// What an empty burst is fed to.
    fn form(&self) -> &'static str {
        let record = self.before;
        match (record.verdict, record.stalled, record.counted) {
            (BROKEN, _, _) => "broken",
            (_, true, true) => "stalled and counted",
            (_, true, false) => "stalled",
            (_, false, true) => "counted",
            _ if record.cycles == 0 => "fresh",
            _ if self.seen.0.last().is_some_and(|c| c & 4 != 0) => "cleared",
            _ => "clean",
        }
    }

    /// How a stall went on after the cut.
    fn after_stall(&self) -> String {
        let (control, data) = self.burst;
        let held = self.before.payload;
        let another = |c: usize| (held.strb, held.data) != (control[c] >> 4, data[c]);
        match self.breach() {
            Some((rule, 0)) => format!("rule {rule}"),
            _ if control[0] & 4 != 0 => match control.get(1).map(|c| c & 5) {
                Some(0) => "cleared, then valid 0".to_string(),
                Some(1) if another(1) => "cleared, then another payload".to_string(),
                _ => "cleared".to_string(),
            },
            _ if control[0] & 2 != 0 => "taken".to_string(),
            _ => "held".to_string(),
        }
    }

    /// What followed a clear before the cut, by the bits of the clear.
    fn after_clear(&self) -> Option<&'static str> {
        let (control, data) = self.burst;
        let (before, word) = (*self.seen.0.last()?, *self.seen.1.last()?);
        let another = (before >> 4, word) != (control[0] >> 4, data[0]);
        match (before & 7, control[0] & 5) {
            (4 | 6, _) => Some("no valid"),
            (5, 0) => Some("a stall's bits, then valid 0"),
            (5, 1) if another => Some("a stall's bits, then another payload"),
            (7, _) => Some("a handshake's bits"),
            _ => None,
        }
    }

    /// Whether the first counter after the cut is right, if it is reached, and on which side of the cut handshakes were skipped;
    /// or what follows, where a clear comes before it.
    fn after_counter(&self) -> Option<(&'static str, &'static str)> {
        let carries = |c: &u8| c & 0x37 == 0x33;
        let handshake = |c: &u8| c & 7 == 3;
        let (control, data) = self.burst;
        let at = control.iter().position(|c| carries(c) || c & 4 != 0)?;
        let how = match self.breach() {
            Some((SEQ, cycle)) if cycle == at => "wrong",
            Some((_, cycle)) if cycle <= at => return None,
            breach if control[at] & 4 != 0 => {
                let end = breach.map_or(control.len(), |(_, cycle)| cycle);
                let next = (at..end).find(|&c| carries(&control[c]));
                let another = next.is_some_and(|c| u32::from(data[c] as u16) != self.before.due);
                return Some(("cleared", if another { ", then another" } else { "" }));
            }
            _ => "right",
        };
        let mut since = self.seen.0.iter().rev().take_while(|c| !carries(c));
        let skipped = [since.any(handshake), control[..at].iter().any(handshake)];
        let sides = match skipped {
            [false, false] => "",
            [true, false] => ", skipped before it",
            [false, true] => ", skipped after it",
            [true, true] => ", skipped on both sides",
        };
        Some((how, sides))
    }

    /// What the burst reached.
    fn reached(&self) -> Vec<String> {
        let (before, after, control) = (self.before, self.after, &self.burst.0);
        if self.refusal != 0 {
            let mut kinds = vec![self.refused()];
            if self.refusal == 2 && control.iter().any(|c| c & 12 == 12) {
                kinds.push("2, in a clear".to_string());
            }
            return kinds;
        }
        if control.is_empty() {
            return vec![format!("empty, {}", self.form())];
        }
        if before.verdict == BROKEN {
            let kind = match (clears(control), before.clears) {
                (false, _) => "broken, more cycles",
                (true, 0) => "broken, more clears",
                (true, _) => "broken with clears, more clears",
            };
            return vec![kind.to_string()];
        }
        let mut kinds = Vec::new();
        if control.iter().all(|c| c & 4 != 0) {
            kinds.push("a burst of clears alone".to_string());
        }
        if let Some((_, cycle)) = self.breach() {
            if clears(&control[..cycle]) {
                kinds.push("clears before a breach".to_string());
            }
            if clears(&control[cycle..]) {
                kinds.push("clears after a breach".to_string());
            }
        }
        if let Some(kind) = self.after_clear() {
            kinds.push(format!("clear before a cut, {kind}"));
        }
        if let Some((rule, 1..)) = self.breach() {
            kinds.push(format!("rule {rule} inside"));
        }
        if before.stalled {
            kinds.push(format!("stall across a cut, {}", self.after_stall()));
        }
        if let Some((how, sides)) = self.after_counter().filter(|_| before.counted) {
            kinds.push(format!("counter across a cut, {how}{sides}"));
            if before.due == 0 && how != "cleared" {
                kinds.push(format!("65535 before a cut, {how}"));
            }
        }
        if !after.seq && control.iter().any(|c| c & 0x37 == 0x33) {
            kinds.push("counters with seq off".to_string());
        }
        kinds
    }
}

/// A session: after every burst the record is the model's, and in the end it says what the checker says of the whole trace.
pub fn compare(
    random: &Random,
    call: impl Fn(&mut Monitor, &[u8], &[u32]) -> u8,
) -> Result<BTreeSet<String>, String> {
    let (start, bursts) = session(random);
    let inputs = bursts.clone();
    let trace = taken(&start, &bursts);
    let (mut record, mut seen) = (start, 0);
    let mut kinds = BTreeSet::new();
    for burst in &bursts {
        let before = record;
        let refusal = fed(&mut record, burst, &call)?;
        let step = Step {
            before: &before,
            seen: (&trace.0[..seen], &trace.1[..seen]),
            burst,
            refusal,
            after: &record,
        };
        kinds.extend(step.reached());
        seen = (record.cycles - start.cycles) as usize;
    }
    same("bursts", &bursts, &inputs)?;
    same("whole", &said(&record), &whole(&start, &trace)?)?;
    let long = match seen {
        0..=MAX_CYCLES if record.clears > 0 => ", cleared",
        0..=MAX_CYCLES => "",
        _ => ", too long for check_stream",
    };
    kinds.insert(format!("the end, {} {}{long}", record.verdict, record.rule));
    if record.cycles == u32::MAX {
        kinds.insert("the end, at the most cycles".to_string());
    }
    Ok(kinds)
}

/// A session of which only the end is looked at, and there only what the record says.
pub fn compare_end(random: &Random, call: impl Fn(&mut Monitor, &[u8], &[u32]) -> u8) -> Compared {
    let (start, bursts) = session(random);
    let mut record = start;
    for (control, data) in &bursts {
        call(&mut record, control, data);
    }
    let want = whole(&start, &taken(&start, &bursts))?;
    same("whole", &said(&record), &want)?;
    Ok(format!("{} {}", record.verdict, record.rule))
}

/// Where a record with clears stands, if it is at the most that its cycles have room for.
fn bound(record: &Monitor) -> Option<&'static str> {
    let with = |clears: u32| monitor::legal(&Monitor { clears, ..*record });
    let clears = record.clears;
    let sum = record.handshakes.checked_add(clears);
    match clears {
        0 => None,
        _ if sum.is_none() && with(0) => Some("the counts past 32 bits"),
        _ if with(clears) && !with(clears.saturating_add(1)) => Some("as many clears as fit"),
        _ if !with(clears) && with(clears - 1) => Some("one clear more than fits"),
        _ => None,
    }
}

/// A record that some bursts left, damaged or not, and one burst more.
pub fn compare_damaged(
    random: &Random,
    call: impl Fn(&mut Monitor, &[u8], &[u32]) -> u8,
) -> Result<BTreeSet<String>, String> {
    let (mut record, bursts) = session(random);
    let last = random.below(bursts.len());
    for (control, data) in &bursts[..last] {
        monitor::feed(&mut record, control, data);
    }
    for _ in 0..random.pick(&[0, 1, 1, 2]) {
        states::damage_monitor(random, &mut record);
    }
    let verdict = match record.verdict {
        CLEAN => "clean",
        BROKEN => "broken",
        _ => "neither",
    };
    let bound = bound(&record);
    let refusal = fed(&mut record, &bursts[last], call)?;
    let mut kinds = BTreeSet::from([format!("{refusal}, {verdict}")]);
    if let (0 | 6, Some(bound)) = (refusal, bound) {
        kinds.insert(format!("{refusal}, {verdict}, {bound}"));
    }
    Ok(kinds)
}

#[test]
fn monitor_fresh() {
    for seq in [false, true] {
        assert_eq!(linked::monitor_fresh(seq), monitor::fresh(seq));
    }
}

#[test]
fn monitor_feed() {
    agree_in_all(60_000, &REACHED, |random| {
        compare(random, linked::monitor_feed)
    });
}

#[test]
fn damaged_monitors() {
    let mut kinds = vec!["0, clean", "0, broken", "2, clean", "2, broken"];
    kinds.extend(["1, clean", "1, broken", "1, neither"]);
    kinds.extend(["3, clean", "3, broken", "3, neither"]);
    kinds.extend(["6, clean", "6, broken", "6, neither"]);
    kinds.extend([
        "0, clean, as many clears as fit",
        "0, broken, as many clears as fit",
        "6, clean, one clear more than fits",
        "6, broken, one clear more than fits",
        "6, clean, the counts past 32 bits",
        "6, broken, the counts past 32 bits",
    ]);
    agree_in_all(100_000, &kinds, |random| {
        compare_damaged(random, linked::monitor_feed)
    });
}

/// Millions of cycles, in bursts of many lengths, some longer than `check_stream` takes: clean, with counters that wrap many
/// times, then broken. The last has clears too.
#[test]
fn millions_of_cycles() {
    const CYCLES: usize = 3_000_000;
    let lengths = [0, 1, 64, 1_000, 65_535, 65_536, 65_537, 300_000];
    for (valids, readies, clears) in [
        (8, 8, Clears::Never),
        (6, 5, Clears::Never),
        (7, 6, Clears::Each(50_000)),
    ] {
        let random = &Random::new(valids as u64);
        let (control, mut data) = traces::drawn_stream(random, CYCLES, valids, readies, 2, clears);
        let carriers: Vec<usize> = (0..CYCLES).filter(|&c| control[c] & 0x37 == 0x33).collect();
        let wraps = carriers.iter().filter(|&&c| data[c] as u16 == 0).count();
        assert!(wraps > 10, "{wraps} counters wrapped");
        let start = monitor::fresh(true);
        let feed = |control: &[u8], data: &[u32]| {
            let (mut record, mut at) = (start, 0);
            while at < CYCLES {
                let end = CYCLES.min(at + random.pick(&lengths));
                let burst = (control[at..end].to_vec(), data[at..end].to_vec());
                assert_eq!(fed(&mut record, &burst, linked::monitor_feed), Ok(0));
                at = end;
            }
            let trace = (control.to_vec(), data.to_vec());
            assert_eq!(Ok(said(&record)), whole(&start, &trace));
            record
        };
        let record = feed(&control, &data);
        assert_eq!((record.verdict, record.counted), (CLEAN, true));
        let cleared = matches!(clears, Clears::Each(_));
        assert_eq!(record.clears > 20, cleared, "{} clears", record.clears);
        let compared = carriers[carriers.len() * 9 / 10..]
            .windows(2)
            .find(|pair| !self::clears(&control[pair[0]..pair[1]]));
        let at = compared.unwrap()[1];
        data[at] ^= 1;
        let record = feed(&control, &data);
        assert_eq!((record.verdict, record.cycle as usize), (BROKEN, at));
    }
}
