//! "Bench text", with request T-09: the report of a text.

use super::stream::check_stream;
use crate::answers::{Filled, BROKEN, CLEAN, NONE, SEQ};

const MAX_ANNOUNCED: usize = 4_096;

/// A trace as a text gives it.
struct Trace {
    seq: bool,
    control: Vec<u8>,
    data: Vec<u32>,
}

/// The first line of a text without its line feed, and the text after it.
fn line(text: &[u8]) -> Option<(&[u8], &[u8])> {
    let end = text.iter().position(|&b| b == b'\n')?;
    Some((&text[..end], &text[end + 1..]))
}

/// N of `cycles=N`.
fn announced(line: &[u8]) -> Option<usize> {
    let digits = line.strip_prefix(b"cycles=")?;
    let form = (1..=5).contains(&digits.len())
        && digits.iter().all(u8::is_ascii_digit)
        && (digits[0] != b'0' || digits == b"0");
    form.then(|| std::str::from_utf8(digits).unwrap().parse().unwrap())
}

/// The switch and the announced number, and the text after the three header lines.
fn header(text: &[u8]) -> Option<(bool, usize, &[u8])> {
    let (kind, text) = line(text)?;
    let (switch, text) = line(text)?;
    let (cycles, text) = line(text)?;
    if kind != b"kind=stream" || ![&b"seq=on"[..], b"seq=off"].contains(&switch) {
        return None;
    }
    Some((switch == b"seq=on", announced(cycles)?, text))
}

/// The control byte and the data word of `c=` and ten hex digits.
fn entry(line: &[u8]) -> Option<(u8, u32)> {
    let digits = line.strip_prefix(b"c=")?;
    let lower_hex = |b: &u8| matches!(b, b'0'..=b'9' | b'a'..=b'f');
    if digits.len() != 10 || !digits.iter().all(lower_hex) {
        return None;
    }
    let number = u64::from_str_radix(std::str::from_utf8(digits).unwrap(), 16).unwrap();
    Some(((number >> 32) as u8, number as u32))
}

/// The trace of a text, or the number of its refusal.
fn trace(text: &[u8]) -> Result<Trace, u8> {
    let (seq, cycles, mut rest) = header(text).ok_or(9)?;
    if cycles > MAX_ANNOUNCED {
        return Err(3);
    }
    let (mut control, mut data) = (Vec::new(), Vec::new());
    for _ in 0..cycles {
        let (first, after) = line(rest).ok_or(9)?;
        let (c, d) = entry(first).ok_or(9)?;
        control.push(c);
        data.push(d);
        rest = after;
    }
    if !rest.is_empty() {
        return Err(9);
    }
    Ok(Trace { seq, control, data })
}

fn refused(number: u8) -> String {
    format!("kind=none\ncycles=0\nverdict=refused\nrule={number}\nat=0\nhandshakes=0\nclears=0\n")
}

/// The report of a text of any bytes.
pub fn report_of(text: &[u8]) -> String {
    let t = match trace(text) {
        Ok(t) => t,
        Err(number) => return refused(number),
    };
    let answer = check_stream(&t.control, &t.data, t.seq);
    let verdict = match answer.verdict {
        CLEAN => "clean",
        BROKEN => "broken",
        NONE => return refused(answer.refusal),
        other => unreachable!("verdict {other}"),
    };
    let rule = match answer.rule {
        SEQ => "seq".to_string(),
        number => number.to_string(),
    };
    let (cycles, at) = (t.control.len(), answer.cycle);
    let (handshakes, clears) = (answer.handshakes, answer.clears);
    format!("kind=stream\ncycles={cycles}\nverdict={verdict}\nrule={rule}\nat={at}\nhandshakes={handshakes}\nclears={clears}\n")
}

/// The report at the start of a lent output; one that is too short is refused with 7.
pub fn report(text: &[u8], out: &mut [u8]) -> Filled {
    let report = report_of(text);
    let count = report.len();
    if out.len() < count {
        return Filled {
            refusal: 7,
            count: 0,
        };
    }
    out[..count].copy_from_slice(report.as_bytes());
    Filled { refusal: 0, count }
}
