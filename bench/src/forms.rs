//! The same row rule in safe Rust, with slices and their bounds checks, in three forms of the search for the best split.

use crate::job::{Columns, Figures, Job, LIMIT};

const NO_PLAN: (u64, u16) = (u64::MAX, 0);

// ---- Charges: one type for each model, so that the loop is compiled for each of them.

trait Model {
    fn for_result(size: u32) -> u64;
    fn for_split(a: u32, b: u32) -> u64;
}

struct Naive;
struct SortMerge;
struct NestedLoops;

impl Model for Naive {
    fn for_result(size: u32) -> u64 {
        size.into()
    }

    fn for_split(_: u32, _: u32) -> u64 {
        0
    }
}

impl Model for SortMerge {
    fn for_result(_: u32) -> u64 {
        0
    }

    fn for_split(a: u32, b: u32) -> u64 {
        let sorting = |rows: u32| u64::from(rows) * u64::from(u32::BITS - rows.leading_zeros());
        sorting(a) + sorting(b)
    }
}

impl Model for NestedLoops {
    fn for_result(size: u32) -> u64 {
        2 * u64::from(size.div_ceil(10))
    }

    fn for_split(a: u32, b: u32) -> u64 {
        (u64::from(a) * u64::from(b)).div_ceil(9900) + u64::from(a.min(b).div_ceil(10))
    }
}

// ---- Searches

/// A loop over the splits of a set: what must be undercut at first, to the best sum of costs and charge and its left part.
trait Loop {
    fn best<M: Model>(columns: &Columns, set: usize, bound: u64) -> (u64, usize);
}

/// Document 002's loop: all splits, nested ifs.
pub struct Nested;

impl Loop for Nested {
    fn best<M: Model>(columns: &Columns, set: usize, bound: u64) -> (u64, usize) {
        let (sizes, costs) = (&columns.sizes[..=set], &columns.costs[..=set]);
        let (mut best, mut best_left) = (bound, 0);
        let mut left = next_left(set, 0);
        while left != set {
            let right = set ^ left;
            if costs[left] < best && costs[right] < best {
                let sum = costs[left] + costs[right];
                if sum < best {
                    let total = sum + M::for_split(sizes[left], sizes[right]);
                    if total < best {
                        (best, best_left) = (total, left);
                    }
                }
            }
            left = next_left(set, left);
        }
        (best, best_left)
    }
}

/// The splits without the highest relation on the left, which come first of their pairs, two a turn: a left part without the lowest
/// relation is followed by the same with it. The held sum of the costs is compared first.
pub struct HalfPaired;

impl Loop for HalfPaired {
    fn best<M: Model>(columns: &Columns, set: usize, bound: u64) -> (u64, usize) {
        let lowest = set & set.wrapping_neg();
        let rest = set ^ lowest;
        let highest = 1 << set.ilog2();
        let columns = (&columns.sizes[..=set], &columns.costs[..=set]);
        let mut best = tried::<M>(columns, (bound, 0), lowest, rest);
        let mut left = next_left(rest, 0);
        while left != highest {
            best = tried::<M>(columns, best, left, set ^ left);
            best = tried::<M>(columns, best, left ^ lowest, rest ^ left);
            left = next_left(rest, left);
        }
        best
    }
}

/// The better of the best so far and one more split.
fn tried<M: Model>(
    (sizes, costs): (&[u32], &[u64]),
    best: (u64, usize),
    left: usize,
    right: usize,
) -> (u64, usize) {
    let sum = costs[left].saturating_add(costs[right]);
    if sum >= best.0 {
        return best;
    }
    let total = sum + M::for_split(sizes[left], sizes[right]);
    if total < best.0 {
        (total, left)
    } else {
        best
    }
}

/// The form that ours has: the step is taken on the set itself, from each left part to the next, two splits a turn, until the right part
/// has the lesser number.
pub struct HalfStepped;

impl Loop for HalfStepped {
    fn best<M: Model>(columns: &Columns, set: usize, bound: u64) -> (u64, usize) {
        let columns = (&columns.sizes[..=set], &columns.costs[..=set]);
        let (mut best, mut left) = ((bound, 0), 0);
        loop {
            left = next_left(set, left);
            best = tried_unheld::<M>(columns, best, left, set - left);
            left = next_left(set, left);
            let right = set - left;
            if right < left {
                return best;
            }
            best = tried_unheld::<M>(columns, best, left, right);
        }
    }
}

/// The same with a jump where the sum overflows, in place of a hold.
fn tried_unheld<M: Model>(
    (sizes, costs): (&[u32], &[u64]),
    best: (u64, usize),
    left: usize,
    right: usize,
) -> (u64, usize) {
    let sum = costs[left].wrapping_add(costs[right]);
    if sum < costs[left] || sum >= best.0 {
        return best;
    }
    let total = sum + M::for_split(sizes[left], sizes[right]);
    if total < best.0 {
        (total, left)
    } else {
        best
    }
}

fn next_left(set: usize, left: usize) -> usize {
    set & left.wrapping_sub(set)
}

/// The cost and the left part of the best split: the charge for the result is taken off the limit first.
fn best_split<L: Loop, M: Model>(columns: &Columns, set: usize, size: u32) -> (u64, u16) {
    let fixed = M::for_result(size);
    if fixed > LIMIT {
        return NO_PLAN;
    }
    match L::best::<M>(columns, set, LIMIT - fixed + 1) {
        (_, 0) => NO_PLAN,
        (best, left) => (best + fixed, left as u16),
    }
}

// ---- Sizes and the fill

fn size_of(figures: &Figures, sizes: &[u32], set: usize) -> u32 {
    let lowest = set.trailing_zeros() as usize;
    let rest = set & (set - 1);
    let mut product = 1u64;
    let mut left_over = rest;
    while left_over != 0 {
        let other = left_over.trailing_zeros() as usize;
        let divisor = figures.divisors[other * (other - 1) / 2 + lowest];
        product = product.saturating_mul(divisor.into());
        left_over &= left_over - 1;
    }
    let rows = u64::from(sizes[rest]) * u64::from(figures.counts[lowest]);
    rows.div_ceil(product).min(u32::MAX.into()) as u32
}

fn fill_under<L: Loop, M: Model>(job: &mut Job) {
    let (figures, columns) = (&job.figures, &mut job.columns);
    (columns.sizes[0], columns.costs[0], columns.lefts[0]) = (0, 0, 0);
    for set in 1..1usize << job.n {
        let single = set.is_power_of_two();
        columns.sizes[set] = match single {
            true => figures.counts[set.trailing_zeros() as usize],
            false => size_of(figures, &columns.sizes, set),
        };
        (columns.costs[set], columns.lefts[set]) = match single {
            true => (0, 0),
            false => best_split::<L, M>(columns, set, columns.sizes[set]),
        };
    }
}

fn fill<L: Loop>(job: &mut Job) {
    match job.model {
        0 => fill_under::<L, Naive>(job),
        1 => fill_under::<L, SortMerge>(job),
        2 => fill_under::<L, NestedLoops>(job),
        model => panic!("model {model} is unknown"),
    }
}

type Form = (&'static str, fn(&mut Job));

pub fn forms() -> Vec<Form> {
    vec![
        ("nested", fill::<Nested>),
        ("half_paired", fill::<HalfPaired>),
        ("half_stepped", fill::<HalfStepped>),
    ]
}
