//! The same calls as one would write them in Rust.

use outside::answers::*;
use outside::models::addressgen::{bad_mask, iterate, overwrites_itself, START};
use outside::models::chain::Offered;
use outside::models::fifo::NOTHING;

fn answer(verdict: u8, rule: u8, cycle: usize, handshakes: u32, clears: u32) -> StreamAnswer {
    StreamAnswer {
        refusal: 0,
        verdict,
        rule,
        cycle: cycle as u32,
        handshakes,
        clears,
    }
}

fn refused(number: u8) -> StreamAnswer {
    StreamAnswer {
        refusal: number,
        ..answer(NONE, 0, 0, 0, 0)
    }
}

#[inline(never)]
pub fn check_stream(control: &[u8], data: &[u32], seq: bool) -> StreamAnswer {
    if control.len() != data.len() {
        return refused(1);
    }
    if control.len() > 65_536 {
        return refused(3);
    }
    if control.iter().any(|c| c & 8 != 0) {
        return refused(2);
    }
    let mut handshakes = 0;
    let mut clears = 0;
    let mut last: Option<u16> = None;
    let mut stalled: Option<(u8, u32)> = None;
    for (cycle, (&c, &d)) in control.iter().zip(data).enumerate() {
        if c & 4 != 0 {
            clears += 1;
            last = None;
            stalled = None;
            continue;
        }
        let valid = c & 1 != 0;
        let ready = c & 2 != 0;
        if let Some(before) = stalled {
            if !valid {
                return answer(BROKEN, 4, cycle, handshakes, clears);
            }
            if before != (c >> 4, d) {
                return answer(BROKEN, 2, cycle, handshakes, clears);
            }
        }
        if valid && ready {
            if c & 0x30 == 0x30 {
                let counter = d as u16;
                if seq && last.is_some_and(|last| counter != last.wrapping_add(1)) {
                    return answer(BROKEN, SEQ, cycle, handshakes, clears);
                }
                last = Some(counter);
            }
            handshakes += 1;
        }
        stalled = (valid && !ready).then_some((c >> 4, d));
    }
    answer(CLEAN, 0, 0, handshakes, clears)
}

/// Whether bursts could have left a record.
fn is_legal(m: &Monitor) -> bool {
    let in_place = (m.stalled || m.payload == NOTHING) && (m.counted || m.due == 0);
    let both = u64::from(m.handshakes) + u64::from(m.clears);
    let clean = m.rule == 0
        && m.cycle == 0
        && both + u64::from(m.stalled) <= u64::from(m.cycles)
        && !(m.counted && (!m.seq || m.handshakes == 0));
    let by_rule = match m.rule {
        4 | 2 => both < u64::from(m.cycle),
        SEQ => m.seq && m.handshakes > 0 && both <= u64::from(m.cycle),
        _ => false,
    };
    let broken = m.cycle < m.cycles && !m.stalled && !m.counted && by_rule;
    let form = match m.verdict {
        CLEAN => clean,
        BROKEN => broken,
        _ => false,
    };
    form && in_place && m.payload.strb < 16 && m.due < 65_536
}

/// A burst fed to a record of any form.
#[inline(never)]
pub fn feed(m: &mut Monitor, control: &[u8], data: &[u32]) -> u8 {
    if control.len() != data.len() {
        return 1;
    }
    if control.len() > (u32::MAX - m.cycles) as usize {
        return 3;
    }
    if !is_legal(m) {
        return 6;
    }
    if control.iter().any(|c| c & 8 != 0) {
        return 2;
    }
    let start = m.cycles;
    m.cycles += control.len() as u32;
    if m.verdict == BROKEN {
        return 0;
    }
    let mut handshakes = m.handshakes;
    let mut clears = m.clears;
    let mut due = m.counted.then_some(m.due as u16);
    let mut stalled = m.stalled.then_some((m.payload.strb, m.payload.data));
    let mut breach = None;
    for ((&c, &d), cycle) in control.iter().zip(data).zip(start..) {
        if c & 4 != 0 {
            clears += 1;
            due = None;
            stalled = None;
            continue;
        }
        let valid = c & 1 != 0;
        let ready = c & 2 != 0;
        if let Some(before) = stalled {
            if !valid {
                breach = Some((4, cycle));
                break;
            }
            if before != (c >> 4, d) {
                breach = Some((2, cycle));
                break;
            }
        }
        if valid && ready {
            if m.seq && c & 0x30 == 0x30 {
                let counter = d as u16;
                if due.is_some_and(|due| counter != due) {
                    breach = Some((SEQ, cycle));
                    break;
                }
                due = Some(counter.wrapping_add(1));
            }
            handshakes += 1;
        }
        stalled = (valid && !ready).then_some((c >> 4, d));
    }
    if let Some((rule, cycle)) = breach {
        (m.verdict, m.rule, m.cycle) = (BROKEN, rule, cycle);
        (stalled, due) = (None, None);
    }
    m.handshakes = handshakes;
    m.clears = clears;
    m.stalled = stalled.is_some();
    m.payload = stalled.map_or(NOTHING, |(strb, data)| Payload { data, strb });
    m.counted = due.is_some();
    m.due = due.map_or(0, u32::from);
    0
}

fn capacity(place: Place) -> usize {
    if place.early_stall {
        place.depth - 1
    } else {
        place.depth
    }
}

fn ready(fifo: &Fifo) -> bool {
    fifo.count < capacity(fifo.place)
}

fn oldest(fifo: &Fifo) -> Option<Payload> {
    (fifo.count > 0).then(|| fifo.slots[fifo.oldest])
}

/// How a ring finds its places: that of the next oldest, and the one past the end.
pub trait Places {
    fn next(depth: usize, oldest: usize) -> usize;
    fn end(depth: usize, oldest: usize, count: usize) -> usize;
}

pub struct ByComparison;

impl Places for ByComparison {
    fn next(depth: usize, oldest: usize) -> usize {
        let next = oldest + 1;
        if next == depth {
            0
        } else {
            next
        }
    }

    fn end(depth: usize, oldest: usize, count: usize) -> usize {
        let mut end = oldest + count;
        if end >= depth {
            end -= depth;
        }
        end
    }
}

pub struct ByRemainder;

impl Places for ByRemainder {
    fn next(depth: usize, oldest: usize) -> usize {
        (oldest + 1) % depth
    }

    fn end(depth: usize, oldest: usize, count: usize) -> usize {
        (oldest + count) % depth
    }
}

fn cycle<P: Places>(fifo: &mut Fifo, offer: Option<Payload>, sink: bool) {
    let accepts = ready(fifo);
    let depth = fifo.place.depth;
    if sink && fifo.count > 0 {
        fifo.oldest = P::next(depth, fifo.oldest);
        fifo.count -= 1;
    }
    if let (Some(payload), true) = (offer, accepts) {
        fifo.slots[P::end(depth, fifo.oldest, fifo.count)] = payload;
        fifo.count += 1;
    }
}

fn is_well<P: Places>(fifo: &Fifo) -> bool {
    let Place { depth, early_stall } = fifo.place;
    let least = if early_stall { 4 } else { 2 };
    if depth < least || depth > MAX_DEPTH || depth & 1 == 1 {
        return false;
    }
    if fifo.oldest >= depth || fifo.count > capacity(fifo.place) {
        return false;
    }
    let mut at = fifo.oldest;
    for _ in 0..fifo.count {
        if fifo.slots[at].strb > 15 {
            return false;
        }
        at = P::next(depth, at);
    }
    true
}

/// A step of a FIFO of any form, by value.
#[inline(never)]
pub fn step<P: Places>(
    fifo: Fifo,
    valid: bool,
    payload: Payload,
    sink: bool,
    clear: bool,
) -> Stepped<Fifo> {
    let mut stepped = Stepped {
        refusal: 0,
        ready: false,
        valid: false,
        payload: Payload { data: 0, strb: 0 },
        next: fifo,
    };
    if !is_well::<P>(&fifo) {
        stepped.refusal = 6;
    } else if payload.strb > 15 {
        stepped.refusal = 2;
    } else if clear {
        stepped.next.count = 0;
    } else {
        stepped.ready = ready(&fifo);
        if let Some(oldest) = oldest(&fifo) {
            (stepped.valid, stepped.payload) = (true, oldest);
        }
        cycle::<P>(&mut stepped.next, valid.then_some(payload), sink);
    }
    stepped
}

/// One cycle of FIFOs in a row, in place, from the outlet to the mouth: what the outlet shows.
fn row_cycle<P: Places>(fifos: &mut [Fifo], offer: Option<Payload>, sink: bool) -> Option<Payload> {
    let shown = oldest(&fifos[fifos.len() - 1]);
    let mut sink_ready = sink;
    for i in (0..fifos.len()).rev() {
        let offer = if i > 0 { oldest(&fifos[i - 1]) } else { offer };
        let was_ready = ready(&fifos[i]);
        cycle::<P>(&mut fifos[i], offer, sink_ready);
        sink_ready = was_ready;
    }
    shown
}

/// A step of a chain of any form, by value.
#[inline(never)]
pub fn chain_step(
    chain: Chain,
    valid: bool,
    payload: Payload,
    sink: bool,
    clear: bool,
) -> Stepped<Chain> {
    let mut stepped = Stepped {
        refusal: 0,
        ready: false,
        valid: false,
        payload: NOTHING,
        next: chain,
    };
    let fifos = &mut stepped.next.fifos;
    let count = chain.count;
    if count == 0 || count > MAX_FIFOS || !fifos[..count].iter().all(is_well::<ByComparison>) {
        stepped.refusal = 6;
    } else if payload.strb > 15 {
        stepped.refusal = 2;
    } else if clear {
        fifos[..count].iter_mut().for_each(|fifo| fifo.count = 0);
    } else {
        stepped.ready = ready(&fifos[0]);
        let offer = valid.then_some(payload);
        if let Some(shown) = row_cycle::<ByComparison>(&mut fifos[..count], offer, sink) {
            (stepped.valid, stepped.payload) = (true, shown);
        }
    }
    stepped
}

/// A run of a chain that has its form over a legal trace, in place.
#[inline(never)]
pub fn run<P: Places>(
    mut chain: Chain,
    offered: &Offered,
    out_control: &mut [u8],
    out_data: &mut [u32],
) -> Chain {
    let Offered {
        control,
        data,
        sink,
    } = offered;
    let fifos = &mut chain.fifos[..chain.count];
    for c in 0..control.len() {
        if control[c] & 4 != 0 {
            out_control[c] = sink[c] << 1 | 4;
            out_data[c] = 0;
            fifos.iter_mut().for_each(|fifo| fifo.count = 0);
            continue;
        }
        let (data, strb) = (data[c], control[c] >> 4);
        let offer = (control[c] & 1 != 0).then_some(Payload { data, strb });
        let shown = row_cycle::<P>(fifos, offer, sink[c] == 1);
        let strb = shown.map_or(0, |p| p.strb);
        out_control[c] = strb << 4 | sink[c] << 1 | u8::from(shown.is_some());
        out_data[c] = shown.map_or(0, |p| p.data);
    }
    chain
}

/// The addresses of as many iterations as are left, or as fit.
#[inline(never)]
pub fn addresses(s: &Settings, t: &mut State, out: &mut [u32]) {
    let (bit0, bit1) = (s.mask & 1 != 0, s.mask & 2 != 0);
    let left = (s.total - t.ov) as usize;
    for entry in out.iter_mut().take(left) {
        *entry = s.base.wrapping_add(t.a0);
        if bit0 {
            *entry = entry.wrapping_add(t.a1);
            if bit1 {
                *entry = entry.wrapping_add(t.a2);
            }
        }
        if t.c0 < s.d0 || !bit0 {
            t.a0 = t.a0.wrapping_add(s.s0);
            t.c0 = t.c0.wrapping_add(1);
        } else if t.c1 < s.d1 || !bit1 {
            t.a0 = 0;
            t.a1 = t.a1.wrapping_add(s.s1);
            t.c0 = 1;
            t.c1 = t.c1.wrapping_add(1);
        } else {
            (t.a0, t.a1) = (0, 0);
            t.a2 = t.a2.wrapping_add(s.s2);
            (t.c0, t.c1) = (1, 1);
        }
        t.ov += 1;
    }
}

/// An iteration's refusal, or its address, by one of the ways to it.
fn address_by(way: impl Fn(&Settings, u32) -> u32, s: &Settings, i: u32) -> AddressAt {
    let refusal = if bad_mask(s) {
        10
    } else if overwrites_itself(s) {
        11
    } else if i >= s.total {
        8
    } else {
        0
    };
    let address = if refusal == 0 { way(s, i) } else { 0 };
    AddressAt { refusal, address }
}

#[inline(never)]
pub fn address_by_quotients(s: &Settings, i: u32) -> AddressAt {
    let way = |s: &Settings, i: u32| {
        if s.mask & 1 == 0 {
            return s.base.wrapping_add(i.wrapping_mul(s.s0));
        }
        let (mut line, word) = (i / s.d0, i % s.d0);
        let mut address = s.base.wrapping_add(word.wrapping_mul(s.s0));
        if s.mask == 3 {
            address = address.wrapping_add((line / s.d1).wrapping_mul(s.s2));
            line %= s.d1;
        }
        address.wrapping_add(line.wrapping_mul(s.s1))
    };
    address_by(way, s, i)
}

#[inline(never)]
pub fn address_by_stepping(s: &Settings, i: u32) -> AddressAt {
    let way = |s: &Settings, i: u32| {
        let mut state = START;
        for _ in 0..i {
            iterate(s, &mut state);
        }
        iterate(s, &mut state)
    };
    address_by(way, s, i)
}

/// The iterations of the first whose address the second also yields, of settings that are not refused.
#[inline(never)]
pub fn overlap(first: &Settings, second: &Settings, out: &mut Vec<u32>) {
    let mut yielded = vec![0; second.total as usize];
    let mut state = START;
    addresses(second, &mut state, &mut yielded);
    out.clear();
    state = START;
    for i in 0..first.total {
        if yielded.contains(&iterate(first, &mut state)) {
            out.push(i);
        }
    }
}

/// The answer of a realigner that refuses.
fn refused_row(refusal: u8) -> Filled {
    Filled { refusal, count: 0 }
}

/// The strobes of the first and the last word of packets that fill one word more than they are.
fn end_strobes(m: u32) -> (u8, u8) {
    (15 << m & 15, 15 >> (4 - m))
}

/// Whether strobes are the plan's.
fn is_plan(m: u32, n: usize, strobes: &[u8]) -> bool {
    let full = |strobes: &[u8]| strobes.iter().all(|&strobe| strobe == 15);
    if m == 0 || n == 0 {
        return strobes.len() == n && full(strobes);
    }
    match strobes {
        [first, middle @ .., last] => {
            middle.len() + 1 == n && (*first, *last) == end_strobes(m) && full(middle)
        }
        _ => false,
    }
}

/// The packets in words.
#[inline(never)]
pub fn realign_source(
    address: u32,
    n: u32,
    words: &[u32],
    strobes: &[u8],
    out: &mut [u32],
) -> Filled {
    let (m, n) = (address % 4, n as usize);
    if words.len() != strobes.len() {
        return refused_row(1);
    }
    if n > 65_535 {
        return refused_row(3);
    }
    if out.len() < n {
        return refused_row(7);
    }
    if !is_plan(m, n, strobes) {
        return refused_row(12);
    }
    let packets = &mut out[..n];
    if m == 0 {
        packets.copy_from_slice(words);
    } else {
        let shift = 8 * m;
        for (packet, pair) in packets.iter_mut().zip(words.windows(2)) {
            *packet = pair[0] >> shift | pair[1] << (32 - shift);
        }
    }
    Filled {
        refusal: 0,
        count: n,
    }
}

/// The words that packets fill: a copy from an aligned address on, if it makes one, and else shifts.
#[inline(never)]
pub fn realign_sink<const COPIES: bool>(
    address: u32,
    packets: &[u32],
    out_words: &mut [u32],
    out_strobes: &mut [u8],
) -> Filled {
    let (m, n) = (address % 4, packets.len());
    if n > 65_535 {
        return refused_row(3);
    }
    let count = if m == 0 || n == 0 { n } else { n + 1 };
    if out_words.len() < count || out_strobes.len() < count {
        return refused_row(7);
    }
    let (words, strobes) = (&mut out_words[..count], &mut out_strobes[..count]);
    strobes.fill(15);
    let bits = 8 * m;
    if count > n {
        words[0] = packets[0] << bits;
        for (word, pair) in words[1..n].iter_mut().zip(packets.windows(2)) {
            *word = pair[0] >> (32 - bits) | pair[1] << bits;
        }
        words[n] = packets[n - 1] >> (32 - bits);
        (strobes[0], strobes[n]) = end_strobes(m);
    } else if COPIES {
        words.copy_from_slice(packets);
    } else {
        let mut before = 0;
        for (word, &packet) in words.iter_mut().zip(packets) {
            *word = before >> 1 >> (31 - bits) | packet << bits;
            before = packet;
        }
    }
    Filled { refusal: 0, count }
}
