//! "Strobe plan": the strobes of the words that a row of packets fills, byte by byte.

use crate::answers::Filled;

/// The strobe of a word: a bit for each of its bytes that lies in the row.
fn strobe(word: usize, row: &std::ops::Range<usize>) -> u8 {
    (0..4)
        .filter(|byte| row.contains(&(4 * word + byte)))
        .map(|byte| 1 << byte)
        .sum()
}

/// The strobes of the words that so many packets from an address on fill, however many they are.
pub fn plan(address: u32, n: u32) -> impl ExactSizeIterator<Item = u8> {
    let m = (address % 4) as usize;
    let row = m..m + 4 * n as usize;
    let words = if n == 0 { 0 } else { row.end.div_ceil(4) };
    (0..words).map(move |word| strobe(word, &row))
}

pub fn strobe_plan(address: u32, n: u32, out: &mut [u8]) -> Filled {
    if n > 65_535 {
        return Filled {
            refusal: 3,
            count: 0,
        };
    }
    let m = (address % 4) as usize;
    let row = m..m + 4 * n as usize;
    let words = if n == 0 { 0 } else { row.end.div_ceil(4) };
    if out.len() < words {
        return Filled {
            refusal: 7,
            count: 0,
        };
    }
    for (word, entry) in out[..words].iter_mut().enumerate() {
        *entry = strobe(word, &row);
    }
    Filled {
        refusal: 0,
        count: words,
    }
}
