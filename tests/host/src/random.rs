//! A small generator, the same on every machine, and cases that run on it.

use std::ops::RangeInclusive;

/// Another seed than the usual one is taken from this variable.
const SEED_VARIABLE: &str = "BUFFERMOSS_SEED";

/// SplitMix64.
pub struct Random {
    state: u64,
}

impl Random {
    fn new(seed: u64) -> Random {
        Random { state: seed }
    }

    pub fn bits(&mut self) -> u64 {
        self.state = self.state.wrapping_add(0x9e37_79b9_7f4a_7c15);
        let mut z = self.state;
        z = (z ^ (z >> 30)).wrapping_mul(0xbf58_476d_1ce4_e5b9);
        z = (z ^ (z >> 27)).wrapping_mul(0x94d0_49bb_1331_11eb);
        z ^ (z >> 31)
    }

    /// A number below `end`, which is not 0.
    pub fn below(&mut self, end: usize) -> usize {
        (self.bits() % end as u64) as usize
    }

    pub fn within(&mut self, range: RangeInclusive<u32>) -> u32 {
        let (least, most) = (u64::from(*range.start()), u64::from(*range.end()));
        (least + self.bits() % (most - least + 1)) as u32
    }

    pub fn one_in(&mut self, times: usize) -> bool {
        self.below(times) == 0
    }

    pub fn pick<T: Copy>(&mut self, choices: &[T]) -> T {
        choices[self.below(choices.len())]
    }

    pub fn shuffle<T>(&mut self, items: &mut [T]) {
        for last in (1..items.len()).rev() {
            items.swap(last, self.below(last + 1));
        }
    }

    /// One of the 32-bit numbers that stand at an edge, or any.
    pub fn number(&mut self) -> u32 {
        match self.below(8) {
            0 => 0,
            1 => 1,
            2 => u32::MAX - self.within(0..=1),
            3 => 1 << self.within(0..=31),
            4 => self.within(0..=12),
            5 => self.within(0..=10_000),
            6 => self.within(0..=1_000_000),
            _ => self.bits() as u32,
        }
    }
}

fn seed() -> u64 {
    match std::env::var(SEED_VARIABLE) {
        Ok(text) => text.parse().expect("the seed is a number of 64 bits"),
        Err(_) => 1,
    }
}

/// Runs `count` cases, each on a generator of its own, so that a case that fails is found again by its name, its number and the seed.
pub fn cases(what: &str, count: u64, mut case: impl FnMut(&mut Random)) {
    let seed = seed();
    for number in 0..count {
        let _running = Running { what, seed, number };
        case(&mut generator(what, seed, number));
    }
}

/// Cases of two names share no numbers, and neither do two cases of one name.
fn generator(what: &str, seed: u64, number: u64) -> Random {
    let mut mixed = Random::new(seed);
    for part in what.bytes().map(u64::from).chain([number]) {
        mixed = Random::new(mixed.bits() ^ part);
    }
    Random::new(mixed.bits())
}

/// Says which case was running when a test fails.
struct Running<'a> {
    what: &'a str,
    seed: u64,
    number: u64,
}

impl Drop for Running<'_> {
    fn drop(&mut self) {
        if std::thread::panicking() {
            let Running { what, seed, number } = self;
            eprintln!("in case {number} of {what}, {SEED_VARIABLE}={seed}");
        }
    }
}
