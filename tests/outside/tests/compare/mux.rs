use outside::answers::Filled;
use outside::lent::{room, Lent};
use outside::random::{agree, same, Compared, Random};
use outside::{linked, models};

/// A cycle number: inside, at or past the end of a trace, or where a sum would wrap.
fn number(random: &Random, cycles: usize) -> usize {
    match random.below(8) {
        0 => random.pick(&[usize::MAX, usize::MAX - 1, usize::MAX - cycles, 1 << 63]),
        1 => cycles + random.below(3),
        2 => 0,
        _ => random.below(cycles + 1),
    }
}

/// The part's bytes and length. Random bytes tell the traces and the places in them apart.
pub fn compare(
    random: &Random,
    call: impl Fn([&[u8]; 2], u8, usize, usize, &mut [u8]) -> Filled,
) -> Compared {
    let most = random.pick(&[4, 60, 600]);
    let lengths = [random.below(most), random.below(most)];
    let traces = lengths.map(|n| random.bytes(n));
    let before = traces.clone();
    let select = random.pick(&[0, 0, 0, 1, 1, 1, 2, 255]);
    let cycles = lengths[usize::from(select == 1)];
    let first = number(random, cycles);
    let count = match random.coin() {
        true => number(random, cycles),
        false => number(random, cycles.saturating_sub(first)),
    };
    let room = room(random, count.min(700));
    let mut out = Lent::bytes(random, room);
    let mut want = out.clone();
    let got = call([&traces[0], &traces[1]], select, first, count, out.lend());
    let model = match models::mux::mux_static(lengths, select, first, count, room) {
        Ok((trace, first, count)) => {
            want.lend()[..count].copy_from_slice(&before[trace][first..first + count]);
            Filled { refusal: 0, count }
        }
        Err(refusal) => Filled { refusal, count: 0 },
    };
    let input = (lengths, select, first, count, room);
    same("answer", &(got, input), &(model, input))?;
    same("part", &(out, input), &(want, input))?;
    same("traces", &traces, &before)?;
    Ok(model.refusal.to_string())
}

#[test]
fn mux_static() {
    agree(300_000, &["0", "7", "8"], |random| {
        compare(random, linked::mux_static)
    });
}
