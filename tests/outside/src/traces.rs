//! Random traces: clean ones, and ways to damage them.

use crate::models::memory::Trace;
use crate::random::Random;

/// How many cycles: mostly few, sometimes many, once in a while at the limit.
pub fn cycles(random: &Random) -> usize {
    match random.below(400) {
        0 => random.pick(&[65_535, 65_536, 65_537, 70_000]),
        1..=8 => random.below(5_000),
        9..=80 => random.below(300),
        _ => random.below(24),
    }
}

/// How often a bit is 1, of eight times: never, rarely, by a coin, mostly or always.
pub fn bias(random: &Random) -> usize {
    random.pick(&[0, 1, 4, 7, 8, 8])
}

pub fn drawn(random: &Random, bias: usize) -> bool {
    random.below(8) < bias
}

/// A strb with bytes 0 and 1 both strobed, or not both; bytes 2 and 3 are as they come.
fn strobes(random: &Random, counted: bool) -> u8 {
    let low = if counted { 3 } else { random.below(3) };
    (random.below(4) << 2 | low) as u8
}

/// In which cycles of a stream clear is 1.
#[derive(Clone, Copy)]
pub enum Clears {
    Never,
    /// In one cycle of so many.
    Each(usize),
    /// In half of the cycles after a stall.
    AfterStalls,
    /// In the first and in the last cycle.
    AtEnds,
}

impl Clears {
    pub fn any(random: &Random) -> Self {
        match random.below(8) {
            0..=3 => Clears::Never,
            4 | 5 => Clears::Each(random.pick(&[1, 2, 3, 8, 40, 300])),
            6 => Clears::AfterStalls,
            _ => Clears::AtEnds,
        }
    }

    /// Whether clear is 1 in this of so many cycles.
    fn drawn(self, random: &Random, cycle: usize, cycles: usize, stalled: bool) -> bool {
        match self {
            Clears::Never => false,
            Clears::Each(n) => random.once_in(n),
            Clears::AfterStalls => stalled && random.coin(),
            Clears::AtEnds => cycle == 0 || cycle + 1 == cycles,
        }
    }
}

/// Makes cycles of an offer's trace clear; the other bits stay.
pub fn set_clears(random: &Random, control: &mut [u8]) {
    let clears = Clears::any(random);
    let cycles = control.len();
    let mut stalled = false;
    for (cycle, byte) in control.iter_mut().enumerate() {
        if clears.drawn(random, cycle, cycles, stalled) {
            *byte |= 4;
        }
        stalled = *byte & 7 == 1;
    }
}

/// A clean stream. A counter is in all of its payloads, in half, in a quarter (all strobes are as likely then), or in few.
pub fn clean_stream(random: &Random, cycles: usize) -> (Vec<u8>, Vec<u32>) {
    let each = random.pick(&[1, 2, 4, 4, 300]);
    let clears = Clears::any(random);
    drawn_stream(random, cycles, bias(random), bias(random), each, clears)
}

/// A clean stream with so many valids and readies among eight cycles, and a counter once in `each` payloads. A clear cycle ends a
/// wait, and the counters go on anywhere after it; its other bits and its data are anything.
pub fn drawn_stream(
    random: &Random,
    cycles: usize,
    valids: usize,
    readies: usize,
    each: usize,
    clears: Clears,
) -> (Vec<u8>, Vec<u32>) {
    let mut counter = random.pick(&[0, 1, 65_533, random.word() as u16]);
    let mut waiting: Option<(u8, u32)> = None;
    let (mut control, mut data) = (Vec::new(), Vec::new());
    for cycle in 0..cycles {
        if clears.drawn(random, cycle, cycles, waiting.is_some()) {
            control.push(random.byte() & 0xf7 | 4);
            data.push(random.word());
            counter = random.pick(&[counter, 0, 65_535, random.word() as u16]);
            waiting = None;
            continue;
        }
        let offered = drawn(random, valids);
        let ready = drawn(random, readies);
        let valid = offered || waiting.is_some();
        let (strb, word) = waiting.take().unwrap_or_else(|| {
            let counted = random.once_in(each);
            let low = [random.word() as u16, counter][usize::from(counted)];
            let word = random.word() & 0xffff_0000 | u32::from(low);
            (strobes(random, counted), word)
        });
        control.push(strb << 4 | u8::from(ready) << 1 | u8::from(valid));
        data.push(if valid { word } else { random.word() });
        if valid && ready {
            counter = counter.wrapping_add(u16::from(strb & 3 == 3));
        } else if valid {
            waiting = Some((strb, word));
        }
    }
    (control, data)
}

/// A place in a trace, with a liking for its end.
fn place(random: &Random, length: usize) -> usize {
    match random.below(4) {
        0 => length - 1,
        1 => length - 1 - random.below(length.min(4)),
        _ => random.below(length),
    }
}

/// Changes one bit of a trace's byte or word, or shortens or lengthens one of the two.
pub fn damage_stream(random: &Random, control: &mut Vec<u8>, data: &mut Vec<u32>) {
    let length = control.len().min(data.len());
    if length == 0 || random.once_in(40) {
        match random.below(3) {
            0 => control.push(random.byte()),
            1 => data.push(random.word()),
            _ => drop(data.pop()),
        }
        return;
    }
    let at = place(random, length);
    match random.below(26) {
        0 => control[at] ^= random.pick(&[8, 12]),
        1..=5 => control[at] ^= 1,
        6..=10 => control[at] ^= 2,
        11..=13 => control[at] ^= 0x10 << random.below(4),
        14..=18 => data[at] ^= 1 << random.below(32),
        19..=21 => control[at] ^= 4,
        _ => data[at] = data[at].wrapping_add(1),
    }
}

/// A stream of any kind: clean, damaged in a place or two, or drawn bit by bit.
pub fn stream(random: &Random) -> (Vec<u8>, Vec<u32>) {
    let n = cycles(random);
    if random.once_in(20) {
        let mask = random.pick(&[0xf3, 0xf7, 0x33, 0x37, 0xff]);
        let control = (0..n).map(|_| random.byte() & mask).collect();
        return (control, (0..n).map(|_| random.word() % 3).collect());
    }
    let (mut control, mut data) = clean_stream(random, n);
    for _ in 0..random.pick(&[0, 1, 1, 2, 5]) {
        damage_stream(random, &mut control, &mut data);
    }
    (control, data)
}

/// A part of a stream's trace, as it is fed to a record.
pub type Burst = (Vec<u8>, Vec<u32>);

/// A stream's trace cut anywhere into bursts, empty ones among them. The last is what one side is longer than the other.
pub fn cut(random: &Random, control: &[u8], data: &[u32]) -> Vec<Burst> {
    let most = random.pick(&[1, 2, 6, 40, 3_000, 100_000]);
    let both = control.len().min(data.len());
    let mut bursts = Vec::new();
    let mut at = 0;
    while at < both {
        let end = both.min(at + random.below(most + 1));
        bursts.push((control[at..end].to_vec(), data[at..end].to_vec()));
        at = end;
    }
    bursts.push((control[both..].to_vec(), data[both..].to_vec()));
    bursts
}

/// Makes a burst one that is refused: of two lengths, or with a reserved bit at any place.
pub fn spoil(random: &Random, (control, data): &mut Burst) {
    let length = control.len();
    match random.below(4) {
        0 => control.push(random.byte()),
        1 => data.push(random.word()),
        _ if length == 0 => data.push(0),
        _ => control[random.below(length)] |= random.pick(&[8, 12]),
    }
}

/// A clean memory trace of both protocols, or of HWPE-Mem alone.
fn clean_memory(random: &Random, cycles: usize) -> Trace {
    let one_way = random.coin().then(|| random.coin());
    let (reqs, gnts) = (bias(random), bias(random));
    let mut owed = false;
    let (mut control, mut add) = (Vec::new(), Vec::new());
    for _ in 0..cycles {
        let req = drawn(random, reqs);
        let gnt = drawn(random, gnts);
        let handshake = req && gnt;
        let read = one_way.filter(|_| handshake).unwrap_or(random.coin());
        let answered = owed || random.coin();
        let bits = [req, gnt, read, answered].map(u8::from);
        let low = bits[0] | bits[1] << 1 | bits[2] << 2 | bits[3] << 3;
        control.push(low | random.byte() & 0xf0);
        let address = random.word();
        add.push(if req { address & !3 } else { address });
        owed = handshake && read;
    }
    let (data, r_data) = (random.words(cycles), random.words(cycles));
    Trace {
        control,
        add,
        data,
        r_data,
    }
}

/// A memory trace of any kind: clean, damaged in a place or two, or drawn bit by bit.
pub fn memory(random: &Random) -> Trace {
    let n = cycles(random);
    let mut trace = clean_memory(random, n);
    if random.once_in(20) {
        trace.control = random.bytes(n);
    }
    for _ in 0..random.pick(&[0, 1, 1, 2, 5]) {
        if random.once_in(60) || n == 0 {
            match random.below(4) {
                0 => trace.control.push(random.byte()),
                1 => trace.add.push(random.word()),
                2 => trace.data.push(random.word()),
                _ => drop(trace.r_data.pop()),
            }
        } else {
            let at = place(random, n);
            match random.below(4) {
                0 => trace.add[at] ^= 1 << random.below(3),
                _ => trace.control[at] ^= 1 << random.below(8),
            }
        }
    }
    trace
}
