//! How fast the proved calls are beside the same calls in plain Rust, as ratios of medians taken in one run.

mod plain;

use outside::answers::*;
use outside::linked;
use outside::models::addressgen::START;
use outside::models::chain::{Line, Offered};
use outside::models::fifo::Stage;
use outside::models::strobes::plan;
use outside::random::Random;
use outside::traces::{drawn_stream, Clears};
use plain::{ByComparison, ByRemainder};
use std::cell::Cell;
use std::hint::black_box;
use std::time::{Duration, Instant};

const CYCLES: usize = 65_536;
const REPETITIONS: usize = 41;

/// So many iterations have the generators whose addresses are compared.
const ITERATIONS: usize = 4_096;

/// So many packets are realigned.
const PACKETS: usize = 65_535;

/// The iteration whose address is asked for, and how often in a row: once is too short.
const NUMBER: u32 = 40_000;
const ASKED: usize = 1_000;

/// So many random traces are judged in turn.
const TRACES: usize = 16;

/// A chain that is timed: its name, and the places of its FIFOs.
type Timed = (&'static str, &'static [Place]);

/// Plain ones.
const LINES: [Timed; 3] = [
    ("one FIFO of depth 2", &[Place::plain(2)]),
    ("eight FIFOs of depth 16", &[Place::plain(16); 8]),
    ("sixteen FIFOs of depth 64", &[Place::plain(64); 16]),
];

/// One of both kinds.
const MIXED: Timed = (
    "eight of depth 16, plain and early-stall in turn",
    [[Place::plain(16), Place::early_stall(16)]; 4].as_flattened(),
);

/// How long one of so many calls in a row takes.
fn time(calls: u32, call: &mut dyn FnMut()) -> Duration {
    let start = Instant::now();
    for _ in 0..calls {
        call();
    }
    start.elapsed() / calls
}

fn median(mut times: Vec<Duration>) -> Duration {
    times.sort();
    times[times.len() / 2]
}

/// The medians of two that are timed in turn.
fn medians(mut proved: impl FnMut(), mut plain: impl FnMut()) -> (Duration, Duration) {
    let once = time(3, &mut plain).max(Duration::from_nanos(1));
    let calls = (Duration::from_millis(4).as_nanos() / once.as_nanos()).clamp(1, 1_000) as u32;
    let (mut of_proved, mut of_plain) = (Vec::new(), Vec::new());
    for _ in 0..REPETITIONS {
        of_proved.push(time(calls, &mut proved));
        of_plain.push(time(calls, &mut plain));
    }
    (median(of_proved), median(of_plain))
}

/// Prints the ratio of the medians, and the rates of so many cycles.
fn print(what: &str, cycles: usize, (proved, plain): (Duration, Duration)) {
    let ratio = proved.as_secs_f64() / plain.as_secs_f64();
    let rate = |time: Duration| cycles as f64 / time.as_secs_f64() / 1e6;
    let rates = [rate(proved), rate(plain)];
    println!("{ratio:5.2}   {what:<57} {:8.1} {:8.1}", rates[0], rates[1]);
}

fn compare(what: &str, proved: impl FnMut(), plain: impl FnMut()) {
    print(what, CYCLES, medians(proved, plain));
}

type Trace = (Vec<u8>, Vec<u32>);

/// Traces of one kind, each call taking the next: a processor learns the branches of one that is judged again and again.
struct Turns<'a> {
    traces: &'a [Trace],
    next: Cell<usize>,
}

impl<'a> Turns<'a> {
    fn new(traces: &'a [Trace]) -> Turns<'a> {
        let next = Cell::new(0);
        Turns { traces, next }
    }

    fn take(&self) -> (&'a [u8], &'a [u32]) {
        let turn = self.next.get();
        self.next.set((turn + 1) % self.traces.len());
        let (control, data) = &self.traces[turn];
        (black_box(control), black_box(data))
    }
}

type Check = fn(&[u8], &[u32], bool) -> StreamAnswer;

/// Traces on each of which both checkers give the verdict's number, by the rule, at the cycle.
fn stream(what: &str, traces: &[Trace], seq: bool, want: (u8, u8, usize)) {
    for (control, data) in traces {
        let answer = linked::check_stream(control, data, seq);
        assert_eq!(answer, plain::check_stream(control, data, seq));
        let got = (answer.verdict, answer.rule, answer.cycle as usize);
        assert_eq!(got, want);
    }
    let (proved, plain) = (Turns::new(traces), Turns::new(traces));
    let check = |by: Check, turns: &Turns| {
        let (control, data) = turns.take();
        black_box(by(control, data, black_box(seq)));
    };
    compare(
        what,
        || check(linked::check_stream, &proved),
        || check(plain::check_stream, &plain),
    );
}

/// Streams that are stalled before their last cycle, so that this one can break rule 4. Their strobes are of all sixteen values.
fn random_handshakes(random: &Random) -> Vec<Trace> {
    std::iter::repeat_with(|| drawn_stream(random, CYCLES, 6, 5, 4, Clears::Never))
        .filter(|(control, _)| control[CYCLES - 2] & 3 == 1)
        .take(TRACES)
        .collect()
}

fn always_ready() -> Vec<Trace> {
    vec![(vec![0xf3; CYCLES], (0..CYCLES as u32).collect())]
}

fn streams(random: &Random) {
    let clean = (CLEAN, 0, 0);
    let last = CYCLES - 1;
    let mut traces = random_handshakes(random);
    stream("stream, random handshakes", &traces, false, clean);
    stream("stream, random handshakes, seq on", &traces, true, clean);
    for (control, _) in &mut traces {
        control[last] &= !1;
    }
    let broken = "stream, random handshakes, broken at the last cycle";
    stream(broken, &traces, false, (BROKEN, 4, last));

    let mut traces = always_ready();
    stream("stream, always valid and ready", &traces, false, clean);
    stream(
        "stream, always valid and ready, seq on",
        &traces,
        true,
        clean,
    );
    traces[0].1[last] = 0;
    let broken = "stream, always valid and ready, broken at the last cycle";
    stream(broken, &traces, true, (BROKEN, SEQ, last));
}

/// Streams in which one cycle of sixteen is clear.
fn cleared_streams() {
    let random = &Random::new(16);
    let traces: Vec<Trace> = (0..TRACES)
        .map(|_| drawn_stream(random, CYCLES, 6, 5, 4, Clears::Each(16)))
        .collect();
    let what = "stream, random handshakes, one in sixteen clear";
    stream(what, &traces, false, (CLEAN, 0, 0));
    let what = format!("{what}, seq on");
    stream(&what, &traces, true, (CLEAN, 0, 0));
}

type Feed = fn(&mut Monitor, &[u8], &[u32]) -> u8;

/// A fresh record, fed with a trace in bursts of so many cycles.
fn fed(feed: Feed, (control, data): (&[u8], &[u32]), seq: bool, burst: usize) -> Monitor {
    let mut record = linked::monitor_fresh(black_box(seq));
    for (control, data) in control.chunks(burst).zip(data.chunks(burst)) {
        assert_eq!(feed(&mut record, control, data), 0);
    }
    record
}

/// The traces that records are fed with, whole and in bursts of 64, and what is timed on each.
fn records(timed: impl Fn(&str, &[Trace], bool, usize)) {
    let kinds = [
        ("random handshakes", random_handshakes(&Random::new(1))),
        ("always valid and ready", always_ready()),
    ];
    for (how, burst) in [("whole", CYCLES), ("in bursts of 64", 64)] {
        for (kind, traces) in &kinds {
            for (switch, seq) in [("", false), (", seq on", true)] {
                let what = format!("record {how}, {kind}{switch}");
                timed(&what, traces, seq, burst);
            }
        }
    }
}

/// A record beside the same in plain Rust.
fn record(what: &str, traces: &[Trace], seq: bool, burst: usize) {
    for (control, data) in traces {
        let run = |feed| fed(feed, (control, data), seq, burst);
        assert_eq!(run(linked::monitor_feed), run(plain::feed));
    }
    let (proved, plain) = (Turns::new(traces), Turns::new(traces));
    let run = |feed: Feed, turns: &Turns| {
        black_box(fed(feed, turns.take(), seq, burst));
    };
    compare(
        what,
        || run(linked::monitor_feed, &proved),
        || run(plain::feed, &plain),
    );
}

/// A record beside the checker of the whole trace, both proved.
fn record_beside_checker(what: &str, traces: &[Trace], seq: bool, burst: usize) {
    for (control, data) in traces {
        let fed = fed(linked::monitor_feed, (control, data), seq, burst);
        let answer = linked::check_stream(control, data, seq);
        let said = (fed.verdict, fed.rule, fed.cycle);
        assert_eq!(said, (answer.verdict, answer.rule, answer.cycle));
        let counts = (fed.handshakes, fed.clears);
        assert_eq!(counts, (answer.handshakes, answer.clears));
    }
    let (of_record, of_checker) = (Turns::new(traces), Turns::new(traces));
    compare(
        what,
        || {
            black_box(fed(linked::monitor_feed, of_record.take(), seq, burst));
        },
        || {
            let (control, data) = of_checker.take();
            black_box(linked::check_stream(control, data, black_box(seq)));
        },
    );
}

/// Offers, and a sink that is ready in two cycles of three.
fn drawn_offers(random: &Random, clears: Clears) -> Offered {
    let (control, data) = drawn_stream(random, CYCLES, 6, 5, 4, clears);
    let sink = (0..CYCLES).map(|_| u8::from(!random.once_in(3))).collect();
    Offered {
        control,
        data,
        sink,
    }
}

type Run = fn(Chain, &Offered, &mut [u8], &mut [u32]) -> Chain;

fn proved_run(chain: Chain, offered: &Offered, control: &mut [u8], data: &mut [u32]) -> Chain {
    linked::chain_run(chain, offered, control, data).next
}

/// The medians of two runs, which give the same.
fn runs(offered: Offered, places: &[Place], one: Run, other: Run) -> (Duration, Duration) {
    let new = linked::chain_new(places).kept;
    let mut out = (vec![0; CYCLES], vec![0; CYCLES]);
    let mut other_out = out.clone();
    let end = one(new, &offered, &mut out.0, &mut out.1);
    let other_end = other(new, &offered, &mut other_out.0, &mut other_out.1);
    assert_eq!(out, other_out);
    assert_eq!(Line::of(&end), Line::of(&other_end));
    let timed = |run: Run, out: &mut (Vec<u8>, Vec<u32>)| {
        let offered = black_box(&offered);
        black_box(run(black_box(new), offered, &mut out.0, &mut out.1));
    };
    medians(|| timed(one, &mut out), || timed(other, &mut other_out))
}

fn chain(what: &str, offered: Offered, places: &[Place], one: Run, other: Run) {
    print(what, CYCLES, runs(offered, places, one, other));
}

/// The proved run beside the same in plain Rust.
fn chains(what: &str, offered: Offered, places: &[Place]) {
    let plain = plain::run::<ByComparison>;
    chain(what, offered, places, proved_run, plain);
}

/// An offer and a ready sink in every cycle.
fn steady_offers() -> Offered {
    Offered {
        control: vec![0xf1; CYCLES],
        data: vec![7; CYCLES],
        sink: vec![1; CYCLES],
    }
}

/// How the time of a run grows with the number of FIFOs.
fn growth(what: &str, offers: impl Fn() -> Offered) {
    let each = |time: Duration| time.as_nanos() as f64 / CYCLES as f64;
    for count in [1, 2, 4, 8, 16] {
        let places = vec![Place::plain(MAX_DEPTH); count];
        let plain = plain::run::<ByComparison>;
        let (proved, plain) = runs(offers(), &places, proved_run, plain);
        let (proved, plain) = (each(proved), each(plain));
        let of_one = proved / count as f64;
        println!("{count:5}   {what:<25} {proved:8.1} {of_one:8.1} {plain:8.1}");
    }
}

/// Steps in a row by value, as many as a run has cycles, each given what the one before handed back.
fn chain_steps(what: &str, random: &Random, places: &[Place]) {
    let offered = drawn_offers(random, Clears::Never);
    let new = linked::chain_new(places).kept;
    let all = |step: fn(Chain, bool, Payload, bool, bool) -> Stepped<Chain>| {
        let mut chain = black_box(new);
        for c in 0..CYCLES {
            let payload = Payload {
                data: offered.data[c],
                strb: offered.control[c] >> 4,
            };
            let (valid, sink) = (offered.control[c] & 1 == 1, offered.sink[c] == 1);
            chain = black_box(step(chain, valid, payload, sink, false)).next;
        }
        chain
    };
    let ends = (all(linked::chain_step), all(plain::chain_step));
    assert_eq!(Line::of(&ends.0), Line::of(&ends.1));
    compare(
        what,
        || {
            black_box(all(linked::chain_step));
        },
        || {
            black_box(all(plain::chain_step));
        },
    );
}

type Step = fn(Fifo, bool, Payload, bool, bool) -> Stepped<Fifo>;

/// A step for each cycle, each given the FIFO that the one before handed back.
fn fifo(what: &str, random: &Random, depth: usize, one: Step, other: Step) {
    let offered = drawn_offers(random, Clears::Never);
    let new = linked::fifo_new(Place::plain(depth)).kept;
    let stepped = |step: Step, fifo: Fifo, c: usize| {
        let payload = Payload {
            data: offered.data[c],
            strb: offered.control[c] >> 4,
        };
        let (valid, sink) = (offered.control[c] & 1 == 1, offered.sink[c] == 1);
        step(fifo, valid, payload, sink, false)
    };
    let (mut end, mut other_end) = (new, new);
    for c in 0..CYCLES {
        let (a, b) = (stepped(one, end, c), stepped(other, other_end, c));
        let shown = |s: Stepped<Fifo>| (s.refusal, s.ready, s.valid, s.payload);
        assert_eq!(shown(a), shown(b));
        (end, other_end) = (a.next, b.next);
        assert_eq!(Stage::of(&end), Stage::of(&other_end));
    }
    let timed = |step: Step| {
        let mut fifo = black_box(new);
        for c in 0..CYCLES {
            fifo = black_box(stepped(step, fifo, c)).next;
        }
    };
    compare(what, || timed(one), || timed(other));
}

/// What it saves to find a place in a ring by a comparison, in the proved calls and in plain Rust's own.
fn rings(random: &Random) {
    let steps: [(&str, Step); 2] = [
        ("proved", linked::fifo_step),
        ("plain", plain::step::<ByComparison>),
    ];
    for (depth, (side, step)) in [2, 16].map(|depth| steps.map(|s| (depth, s))).concat() {
        let what = format!("FIFO step, depth {depth}, {side}");
        fifo(&what, random, depth, step, plain::step::<ByRemainder>);
    }
    let runs: [(&str, Run); 2] = [
        ("proved", proved_run),
        ("plain", plain::run::<ByComparison>),
    ];
    for ((line, places), (side, run)) in LINES.map(|line| runs.map(|r| (line, r))).concat() {
        let what = format!("chain, {line}, {side}");
        let offered = drawn_offers(random, Clears::Never);
        chain(&what, offered, places, run, plain::run::<ByRemainder>);
    }
}

/// A store in three dimensions.
fn planes(total: usize) -> Settings {
    Settings {
        base: 0x1000,
        d0: 30,
        d1: 20,
        total: total as u32,
        s0: 4,
        s1: 0x200,
        s2: 0x10_000,
        mask: 3,
        store: true,
    }
}

fn addresses() {
    let settings = planes(CYCLES);
    let mut out = vec![0; CYCLES];
    let mut plain_out = out.clone();
    let end = linked::addressgen_run(&settings, &START, CYCLES, &mut out).state;
    let mut state = START;
    plain::addresses(&settings, &mut state, &mut plain_out);
    assert_eq!((&out, end), (&plain_out, state));
    compare(
        "addresses, three dimensions",
        || {
            let settings = black_box(&settings);
            black_box(linked::addressgen_run(settings, &START, CYCLES, &mut out));
        },
        || {
            let mut state = START;
            plain::addresses(black_box(&settings), &mut state, &mut plain_out);
            black_box(state);
        },
    );
}

/// An overlap of settings of which so many addresses meet.
fn overlap(what: &str, first: Settings, second: Settings, met: usize) {
    let mut out = vec![0; ITERATIONS];
    let mut plain_out = Vec::new();
    let Filled { refusal, count } = linked::overlap(&first, &second, &mut out);
    plain::overlap(&first, &second, &mut plain_out);
    assert_eq!((refusal, count), (0, met));
    assert_eq!(out[..met], plain_out);
    let timed = medians(
        || {
            let (first, second) = (black_box(&first), black_box(&second));
            black_box(linked::overlap(first, second, &mut out));
        },
        || {
            plain::overlap(black_box(&first), black_box(&second), &mut plain_out);
            black_box(&plain_out);
        },
    );
    print(what, ITERATIONS, timed);
}

fn overlaps() {
    let first = planes(ITERATIONS);
    let beside = Settings {
        base: first.base + 2,
        ..first
    };
    overlap("overlap, no address met", first, beside, 0);
    overlap("overlap, every address met", first, first, ITERATIONS);
}

type Source = fn(u32, u32, &[u32], &[u8], &mut [u32]) -> Filled;

/// The packets in words of random bytes, null bytes too.
fn source(random: &Random, m: u32) {
    let strobes: Vec<u8> = plan(m, PACKETS as u32).collect();
    let words = random.words(strobes.len());
    let run = |call: Source, out: &mut [u32]| {
        let (words, strobes) = (black_box(&words), black_box(&strobes));
        black_box(call(black_box(m), PACKETS as u32, words, strobes, out))
    };
    let mut out = vec![0; PACKETS];
    let mut plain_out = out.clone();
    let answer = run(linked::realign_source, &mut out);
    assert_eq!(answer, run(plain::realign_source, &mut plain_out));
    assert_eq!((answer.refusal, &out), (0, &plain_out));
    let timed = medians(
        || {
            run(linked::realign_source, &mut out);
        },
        || {
            run(plain::realign_source, &mut plain_out);
        },
    );
    print(&format!("source, remainder {m}"), PACKETS, timed);
}

type Sink = fn(u32, &[u32], &mut [u32], &mut [u8]) -> Filled;

/// The words that packets of random bytes fill, beside a plain sink.
fn sink(what: &str, random: &Random, m: u32, plain_sink: Sink) {
    let packets = random.words(PACKETS);
    let run = |call: Sink, out: &mut (Vec<u32>, Vec<u8>)| {
        let packets = black_box(&packets);
        black_box(call(black_box(m), packets, &mut out.0, &mut out.1))
    };
    let mut out = (vec![0; PACKETS + 1], vec![0; PACKETS + 1]);
    let mut plain_out = out.clone();
    let answer = run(linked::realign_sink, &mut out);
    assert_eq!(answer, run(plain_sink, &mut plain_out));
    assert_eq!((answer.refusal, &out), (0, &plain_out));
    let timed = medians(
        || {
            run(linked::realign_sink, &mut out);
        },
        || {
            run(plain_sink, &mut plain_out);
        },
    );
    print(what, PACKETS, timed);
}

fn realigners() {
    let random = &Random::new(10);
    (0..4).for_each(|m| source(random, m));
    for m in 0..4 {
        let what = format!("sink, remainder {m}");
        sink(&what, random, m, plain::realign_sink::<true>);
    }
    let what = "sink, remainder 0, beside plain Rust that shifts by 0";
    sink(what, random, 0, plain::realign_sink::<false>);
}

/// The address of an iteration by its number beside another way to it.
fn number_beside(what: &str, mut other: impl FnMut(&Settings, u32) -> AddressAt) {
    let settings = planes(CYCLES);
    let answer = linked::address_at(&settings, NUMBER);
    assert_eq!((answer, answer.refusal), (other(&settings, NUMBER), 0));
    let asked = |at: &mut dyn FnMut(&Settings, u32) -> AddressAt| {
        for _ in 0..ASKED {
            black_box(at(black_box(&settings), black_box(NUMBER)));
        }
    };
    let (number, other) = medians(|| asked(&mut linked::address_at), || asked(&mut other));
    let each = |time: Duration| time.as_nanos() as f64 / ASKED as f64;
    let (number, other) = (each(number), each(other));
    let ratio = number / other;
    println!("{ratio:7.4} {what:<57} {number:8.1} {other:8.1}");
}

fn numbers() {
    number_beside("plain Rust by quotients", plain::address_by_quotients);
    number_beside("plain Rust that steps there", plain::address_by_stepping);
    let mut words = vec![0; NUMBER as usize + 1];
    number_beside("the proved run that steps there", |settings, i| {
        let ran = linked::addressgen_run(settings, &START, words.len(), &mut words);
        AddressAt {
            refusal: ran.refusal,
            address: words[i as usize],
        }
    });
}

fn main() {
    println!("ratio of the proved call's time to plain Rust's, each on {CYCLES} cycles,");
    println!("and millions of cycles per second of both\n");
    println!("{:5}   {:<57} {:>8} {:>8}", "ratio", "", "proved", "plain");
    let random = Random::new(1);
    streams(&random);
    cleared_streams();
    for (line, places) in LINES {
        let what = format!("chain, {line}");
        let offered = drawn_offers(&random, Clears::Never);
        chains(&what, offered, places);
    }
    let (line, places) = MIXED;
    let offered = drawn_offers(&Random::new(8), Clears::Never);
    chains(&format!("chain, {line}"), offered, places);
    for (line, places) in LINES {
        let what = format!("chain, {line}, one in sixteen clear");
        let offered = drawn_offers(&Random::new(16), Clears::Each(16));
        chains(&what, offered, places);
    }
    for (line, places) in LINES {
        let what = format!("chain step by step, {line}");
        chain_steps(&what, &random, places);
    }
    addresses();
    records(record);
    println!("\nratio of the time of a record that is fed to that of the checker on the whole trace, both proved;");
    println!("the aim is 1.1 whole, and 1.5 in bursts of 64\n");
    println!(
        "{:5}   {:<57} {:>8} {:>8}",
        "ratio", "", "record", "checker"
    );
    records(record_beside_checker);
    println!("\nratio of the time of an overlap of {ITERATIONS} iterations and {ITERATIONS} to plain Rust's,");
    println!("and millions of iterations of the first per second of both\n");
    println!("{:5}   {:<57} {:>8} {:>8}", "ratio", "", "proved", "plain");
    overlaps();
    println!("\nratio of the time of a realigner of {PACKETS} packets to plain Rust's,");
    println!("and millions of packets per second of both\n");
    println!("{:5}   {:<57} {:>8} {:>8}", "ratio", "", "proved", "plain");
    realigners();
    println!("\nratio of the time for address {NUMBER} by its number to that of another way, and nanoseconds of both\n");
    println!("{:7} {:<57} {:>8} {:>8}", "ratio", "", "number", "other");
    numbers();
    println!("\nnanoseconds a cycle of a run over FIFOs of depth {MAX_DEPTH}: all of them, each, and all in plain Rust\n");
    println!(
        "{:5}   {:<25} {:>8} {:>8} {:>8}",
        "FIFOs", "", "proved", "each", "plain"
    );
    growth("random offers", || drawn_offers(&random, Clears::Never));
    growth("an offer in every cycle", steady_offers);
    println!("\nratio of the time with a comparison for a place in a ring to plain Rust's with a remainder\n");
    println!(
        "{:5}   {:<57} {:>8} {:>8}",
        "ratio", "", "compared", "divided"
    );
    rings(&random);
}
