//! Seeded random numbers, and the loop that tries a comparison on many seeds.

use std::cell::Cell;
use std::collections::BTreeSet;

/// A generator of random numbers (splitmix64), the same for the same seed.
pub struct Random(Cell<u64>);

impl Random {
    pub fn new(seed: u64) -> Self {
        Random(Cell::new(seed))
    }

    pub fn bits(&self) -> u64 {
        let mut z = self.0.get().wrapping_add(0x9e37_79b9_7f4a_7c15);
        self.0.set(z);
        z = (z ^ (z >> 30)).wrapping_mul(0xbf58_476d_1ce4_e5b9);
        z = (z ^ (z >> 27)).wrapping_mul(0x94d0_49bb_1331_11eb);
        z ^ (z >> 31)
    }

    pub fn byte(&self) -> u8 {
        self.bits() as u8
    }

    pub fn word(&self) -> u32 {
        self.bits() as u32
    }

    /// A number from 0 to `n - 1`.
    pub fn below(&self, n: usize) -> usize {
        (self.bits() % n as u64) as usize
    }

    /// True once in `n` times.
    pub fn once_in(&self, n: usize) -> bool {
        self.below(n) == 0
    }

    pub fn coin(&self) -> bool {
        self.once_in(2)
    }

    pub fn pick<T: Copy>(&self, from: &[T]) -> T {
        from[self.below(from.len())]
    }

    pub fn bytes(&self, n: usize) -> Vec<u8> {
        (0..n).map(|_| self.byte()).collect()
    }

    pub fn words(&self, n: usize) -> Vec<u32> {
        (0..n).map(|_| self.word()).collect()
    }
}

/// How a comparison of one random case ends: with the kind of answer that both gave, or with the difference, in words.
pub type Compared = Result<String, String>;

/// Two values that should be equal.
pub fn same<T: PartialEq + std::fmt::Debug>(what: &str, got: &T, want: &T) -> Result<(), String> {
    if got == want {
        return Ok(());
    }
    let text: String = format!("{got:?} in place of {want:?}")
        .chars()
        .take(4_000)
        .collect();
    Err(format!("{what}: {text}"))
}

/// The kinds of an answer: what it is, and that with each thing that stood out.
pub fn kinds_of(answer: String, found: &[(&str, bool)]) -> BTreeSet<String> {
    let what = found.iter().filter(|(_, is)| *is);
    let mut kinds: BTreeSet<String> = what.map(|(name, _)| format!("{answer}, {name}")).collect();
    kinds.insert(answer);
    kinds
}

/// Fails, with the seed, where a comparison differs, and where the kinds of answers are not those that the inputs should reach.
pub fn agree(cases: u64, kinds: &[impl AsRef<str>], compare: impl Fn(&Random) -> Compared) {
    agree_in_all(cases, kinds, |random| {
        compare(random).map(|kind| BTreeSet::from([kind]))
    });
}

/// The same where one random case has answers of several kinds.
pub fn agree_in_all(
    cases: u64,
    kinds: &[impl AsRef<str>],
    compare: impl Fn(&Random) -> Result<BTreeSet<String>, String>,
) {
    let mut reached = BTreeSet::new();
    for seed in 0..cases {
        match compare(&Random::new(seed)) {
            Ok(kinds) => reached.extend(kinds),
            Err(difference) => panic!("seed {seed}: {difference}"),
        };
    }
    let wanted: BTreeSet<String> = kinds.iter().map(|kind| kind.as_ref().to_string()).collect();
    assert_eq!(reached, wanted, "the kinds of answers");
}

/// Fails where a comparison finds no difference.
pub fn differ<T>(cases: u64, compare: impl Fn(&Random) -> Result<T, String>) {
    assert!((0..cases).any(|seed| compare(&Random::new(seed)).is_err()));
}
