use outside::answers::Filled;
use outside::lent::{room, Lent};
use outside::models::bench_text;
use outside::random::{agree, same, Compared, Random};
use outside::{linked, traces};

/// The text of a stream of any kind, with a legal or an illegal number of cycles.
fn text(random: &Random) -> Vec<u8> {
    let (control, data) = loop {
        let (control, data) = traces::stream(random);
        if control.len() <= 4_200 {
            break (control, data);
        }
    };
    let switch = random.pick(&["on", "off"]);
    let cycles = control.len().min(data.len());
    let mut text = format!("kind=stream\nseq={switch}\ncycles={cycles}\n");
    for (c, d) in control.iter().zip(&data) {
        text.push_str(&format!("c={c:02x}{d:08x}\n"));
    }
    text.into_bytes()
}

/// Another number in the third line, of any form.
fn announce(random: &Random, text: &[u8]) -> Vec<u8> {
    let cycles = text.split(|&b| b == b'\n').count().saturating_sub(4);
    let number = match random.below(8) {
        0 => random
            .pick(&[
                "", "00", "01", "04096", "100000", "4096", "4097", "99999", "5 ", "-1",
            ])
            .into(),
        1 => format!("0{cycles}"),
        2 => format!("{}", cycles + 1),
        3 => format!("{}", cycles.saturating_sub(1)),
        4 => format!("{}", random.below(120_000)),
        5 => format!("{cycles}\r"),
        6 => format!("{:x}", cycles + 10),
        _ => format!("+{cycles}"),
    };
    let mut lines: Vec<&[u8]> = text.split(|&b| b == b'\n').collect();
    let third = format!("cycles={number}");
    if lines.len() > 2 {
        lines[2] = third.as_bytes();
    }
    lines.join(&b'\n')
}

/// One edit: of a byte, a line, the end, or every line.
fn edit(random: &Random, text: Vec<u8>) -> Vec<u8> {
    let mut text = text;
    let at = match random.coin() {
        true => random.below(text.len().clamp(1, 40)),
        false => random.below(text.len().max(1)),
    };
    let odd = random.pick(b"0123456789abcdefgABF=\n\r cskoq-\0\xff");
    match random.below(12) {
        0 | 1 if !text.is_empty() => text[at] = odd,
        2 => text.insert(at, odd),
        3 if !text.is_empty() => drop(text.remove(at)),
        4 => text.truncate(at),
        5 => drop(text.pop()),
        6 => text.push(odd),
        7 => text.extend_from_slice(b"c=f300000000\n"),
        8 => return announce(random, &text),
        9 => text = text.to_ascii_uppercase(),
        10 => {
            text = String::from_utf8_lossy(&text)
                .replace('\n', "\r\n")
                .into_bytes()
        }
        _ => return announce(random, &text),
    }
    text
}

/// A text that is of the form, nearly of it, or not at all.
fn any_text(random: &Random) -> Vec<u8> {
    if random.once_in(30) {
        let length = random.pick(&[0, 1, 12, 40, 300, 60_000]);
        return match random.below(3) {
            0 => vec![0; length],
            1 => random.bytes(length),
            _ => (0..length)
                .map(|_| random.pick(b"kindstreamq=of\ncyl0123"))
                .collect(),
        };
    }
    let mut text = text(random);
    for _ in 0..random.pick(&[0, 0, 1, 1, 2]) {
        text = edit(random, text);
    }
    text
}

fn compare_text(
    random: &Random,
    text: &[u8],
    call: impl Fn(&[u8], &mut [u8]) -> Filled,
) -> Compared {
    let before = text.to_vec();
    let room = room(random, bench_text::report_of(text).len());
    let mut out = Lent::bytes(random, room);
    let mut want = out.clone();
    let answer = call(text, out.lend());
    let model = bench_text::report(&before, want.lend());
    let input = (room, String::from_utf8_lossy(&before));
    same("answer", &(answer, &input), &(model, &input))?;
    same("report", &(out, &input), &(want, &input))?;
    same("text", &text, &&before[..])?;
    let report = bench_text::report_of(&before);
    let lines: Vec<&str> = report.lines().collect();
    let cleared = if lines[6] == "clears=0" {
        ""
    } else {
        " cleared"
    };
    let short = if model.refusal == 7 { " short" } else { "" };
    Ok(format!("{} {}{cleared}{short}", lines[2], lines[3]))
}

pub fn compare(random: &Random, call: impl Fn(&[u8], &mut [u8]) -> Filled) -> Compared {
    let text = any_text(random);
    compare_text(random, &text, call)
}

#[test]
fn report() {
    let mut kinds = Vec::new();
    for short in ["", " short"] {
        for cleared in ["", " cleared"] {
            let broken = |rule| format!("verdict=broken rule={rule}{cleared}{short}");
            kinds.push(format!("verdict=clean rule=0{cleared}{short}"));
            kinds.extend(["4", "2", "seq"].map(broken));
        }
        kinds.extend(["9", "3", "2"].map(|rule| format!("verdict=refused rule={rule}{short}")));
    }
    let kinds: Vec<&str> = kinds.iter().map(String::as_str).collect();
    agree(80_000, &kinds, |random| compare(random, linked::report));
}

/// The longest legal text, one cycle more, and texts far past any form.
#[test]
fn report_on_long_texts() {
    let kinds = ["verdict=refused rule=9", "verdict=refused rule=3"];
    agree(30, &kinds, |random| {
        let cycles = random.pick(&[4_095, 4_096, 4_097]);
        let (control, data) = traces::clean_stream(random, cycles);
        let mut text = format!("kind=stream\nseq=on\ncycles={cycles}\n");
        for (c, d) in control.iter().zip(&data) {
            text.push_str(&format!("c={c:02x}{d:08x}\n"));
        }
        compare_text(random, text.as_bytes(), linked::report)?;
        text.push_str(&"\0".repeat(1 + random.below(5_000_000)));
        let kind = compare_text(random, text.as_bytes(), linked::report)?;
        Ok(kind.replace(" short", ""))
    });
}

/// The longest report has 84 bytes: 4,096 cycles, of which the last breaks rule seq after 1,000 clears and more handshakes. It
/// fits just that room.
#[test]
fn longest_report() {
    let mut text = String::from("kind=stream\nseq=on\ncycles=4096\n");
    text.push_str(&"c=f700000009\n".repeat(1_000));
    for counter in (0..3_095).chain([0]) {
        text.push_str(&format!("c=f3{counter:08x}\n"));
    }
    assert_eq!(
        text.len(),
        53_280 - 1,
        "seq=on is a byte shorter than seq=off"
    );
    let report = "kind=stream\ncycles=4096\nverdict=broken\nrule=seq\nat=4095\nhandshakes=3095\nclears=1000\n";
    assert_eq!(report.len(), 84);
    let mut out = [0; 84];
    let answer = linked::report(text.as_bytes(), &mut out);
    assert_eq!(
        answer,
        Filled {
            refusal: 0,
            count: 84
        }
    );
    assert_eq!(out, report.as_bytes());
    let mut short = [0; 83];
    let answer = linked::report(text.as_bytes(), &mut short);
    assert_eq!(
        answer,
        Filled {
            refusal: 7,
            count: 0
        }
    );
    assert_eq!(short, [0; 83]);
}
