//! An independent model of document 01. It shares no code and no idea with the functions under test: splits are found by looking at every
//! number, sizes are worked in 128 bits, text is parsed by the standard library.

pub mod call;
pub mod charges;
pub mod file;
pub mod report;
pub mod table;
pub mod tree;

/// "There are n relations, 1 to 15."
pub const MOST: u32 = 15;

/// "With none usable, cost is 2^64-1."
pub const NO_PLAN: u64 = u64::MAX;

/// "The limit is at most 2^60."
pub const HIGHEST_LIMIT: u64 = 1 << 60;

pub fn is_count_of_relations(n: u32) -> bool {
    (1..=MOST).contains(&n)
}

/// "A set's number is the sum of its members' weights."
pub fn set_of_all(n: u32) -> usize {
    (1 << n) - 1
}

/// "Relation k has the weight 2^(k-1)."
pub fn holds(set: usize, k: u32) -> bool {
    (set >> (k - 1)) % 2 == 1
}

pub fn members(set: usize) -> impl Iterator<Item = u32> {
    (1..=MOST).filter(move |&k| holds(set, k))
}

/// "Pair (i, j), i < j, stands at place (j-1)(j-2)/2 + (i-1), counted from 0. The order of the two names never matters."
pub fn place_of_pair(i: u32, j: u32) -> usize {
    let (i, j) = (i.min(j) as usize, i.max(j) as usize);
    (j - 1) * (j - 2) / 2 + (i - 1)
}

pub fn number_of_pairs(n: u32) -> usize {
    let n = n as usize;
    n * n.saturating_sub(1) / 2
}
