use outside::answers::Filled;
use outside::lent::{room, Lent};
use outside::random::{agree, same, Compared, Random};
use outside::{linked, models};

pub fn compare(random: &Random, call: impl Fn(u32, u32, &mut [u8]) -> Filled) -> Compared {
    let address = random.pick(&[
        random.word() % 5,
        random.word(),
        u32::MAX - random.word() % 5,
    ]);
    let n = match random.below(100) {
        0 => random.pick(&[65_534, 65_535]),
        1..=8 => random.pick(&[65_536, 65_537, u32::MAX, random.word() | 1 << 16]),
        9..=20 => random.word() % 4_000,
        _ => random.word() % 9,
    };
    let needed = if n > 65_535 { 9 } else { n as usize + 1 };
    let room = room(random, needed);
    let mut out = Lent::bytes(random, room);
    let mut want = out.clone();
    let answer = call(address, n, out.lend());
    let model = models::strobes::strobe_plan(address, n, want.lend());
    let input = (address, n, room);
    same("answer", &(answer, input), &(model, input))?;
    same("plan", &(out, input), &(want, input))?;
    Ok(model.refusal.to_string())
}

#[test]
fn strobe_plan() {
    agree(120_000, &["0", "3", "7"], |random| {
        compare(random, linked::strobe_plan)
    });
}
