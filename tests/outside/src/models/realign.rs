//! Request T-10: the packets that words hold, and the words that packets fill, as rows of bytes.

use super::applying;
use super::strobes::plan;
use crate::answers::Filled;

/// How many packets there may be.
pub const MAX_PACKETS: usize = 65_535;

/// The refusals whose ground applies to a source, in the order in which they are tried.
pub fn source_grounds(address: u32, n: u32, words: &[u32], strobes: &[u8], room: usize) -> Vec<u8> {
    let plan = plan(address, n);
    let as_many = [words.len(), strobes.len()] == [plan.len(); 2];
    applying(&[
        (1, words.len() != strobes.len()),
        (3, n as usize > MAX_PACKETS),
        (7, room < n as usize),
        (12, !as_many || plan.ne(strobes.iter().copied())),
    ])
}

/// The packets are the bytes whose strobes are 1, four to a packet.
pub fn source(address: u32, n: u32, words: &[u32], strobes: &[u8], out: &mut [u32]) -> Filled {
    let grounds = source_grounds(address, n, words, strobes, out.len());
    if let Some(&refusal) = grounds.first() {
        return Filled { refusal, count: 0 };
    }
    let bytes = words.iter().flat_map(|word| word.to_le_bytes());
    let named = strobes
        .iter()
        .flat_map(|strobe| [1, 2, 4, 8].map(|bit| strobe & bit != 0));
    let row: Vec<u8> = bytes
        .zip(named)
        .filter_map(|(byte, named)| named.then_some(byte))
        .collect();
    for (packet, bytes) in out.iter_mut().zip(row.chunks(4)) {
        *packet = u32::from_le_bytes(bytes.try_into().unwrap());
    }
    Filled {
        refusal: 0,
        count: n as usize,
    }
}

/// The refusals whose ground applies to a sink with rooms for words and strobes, in the order in which they are tried.
pub fn sink_grounds(address: u32, packets: &[u32], rooms: [usize; 2]) -> Vec<u8> {
    let words = plan(address, packets.len() as u32).len();
    applying(&[
        (3, packets.len() > MAX_PACKETS),
        (7, rooms.into_iter().any(|room| room < words)),
    ])
}

/// The words are the packets' bytes from the remainder on, and bytes of 0 around them.
pub fn sink(
    address: u32,
    packets: &[u32],
    out_words: &mut [u32],
    out_strobes: &mut [u8],
) -> Filled {
    let grounds = sink_grounds(address, packets, [out_words.len(), out_strobes.len()]);
    if let Some(&refusal) = grounds.first() {
        return Filled { refusal, count: 0 };
    }
    let plan = plan(address, packets.len() as u32);
    let count = plan.len();
    let mut row = vec![0; 4 * count];
    let places = row.iter_mut().skip((address % 4) as usize);
    let bytes = packets.iter().flat_map(|packet| packet.to_le_bytes());
    places.zip(bytes).for_each(|(place, byte)| *place = byte);
    for (word, bytes) in out_words.iter_mut().zip(row.chunks(4)) {
        *word = u32::from_le_bytes(bytes.try_into().unwrap());
    }
    for (entry, strobe) in out_strobes.iter_mut().zip(plan) {
        *entry = strobe;
    }
    Filled { refusal: 0, count }
}
