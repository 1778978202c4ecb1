//! Random figures, tables and requests. They are sound, so that the work is done, until they are spoiled.

use crate::model::table::{Columns, Figures, Job, Request};
use crate::model::{number_of_pairs, place_of_pair, set_of_all, HIGHEST_LIMIT, MOST, NO_PLAN};
use crate::random::Random;

/// All that a fill or an edit is called with.
#[derive(Clone, Debug)]
pub struct Call {
    pub request: Request,
    pub job: Job,
    pub figures: Figures,
    pub table: Columns,
}

// ---- sound

/// Figures of n relations. In one set of figures the numbers are of one kind or two, so that there are ties, held sizes and many zeros.
pub fn figures(random: &mut Random, n: u32) -> Figures {
    let (count_kind, divisor_kind) = (random.below(7), random.below(7));
    Figures {
        counts: (0..n).map(|_| figure(random, count_kind)).collect(),
        divisors: (0..number_of_pairs(n))
            .map(|_| figure(random, divisor_kind).max(1))
            .collect(),
    }
}

fn figure(random: &mut Random, kind: usize) -> u32 {
    match kind {
        0 => 1,
        1 => random.pick(&[1, 1, 1, 2, 10, u32::MAX]),
        2 => random.within(0..=4),
        3 => random.within(0..=100_000),
        4 => random.within(u32::MAX - 3..=u32::MAX),
        // Products of these are 2^64 and 2^128: in 64 or 128 bits they would wrap to 0.
        5 => 1 << random.pick(&[0, 8, 16, 16, 16]),
        _ => random.number(),
    }
}

/// Columns of anything, with as many rows as n needs or a few more.
pub fn columns(random: &mut Random, n: u32) -> Columns {
    let rows = 1 << n;
    let mut lengths = || rows + random.below(4);
    let (sizes, costs, lefts) = (lengths(), lengths(), lengths());
    Columns {
        sizes: (0..sizes).map(|_| random.number()).collect(),
        costs: (0..costs).map(|_| any_cost(random)).collect(),
        lefts: (0..lefts).map(|_| random.bits() as u16).collect(),
    }
}

fn any_cost(random: &mut Random) -> u64 {
    match random.below(6) {
        0 => 0,
        1 => NO_PLAN,
        2 => random.bits(),
        3 => HIGHEST_LIMIT - 1 + random.bits() % 3,
        _ => random.bits() % 1_000_000,
    }
}

/// A limit at an edge of what is allowed, or about one of the costs.
pub fn limit(random: &mut Random, costs: &[u64]) -> u64 {
    let about = random.pick(costs).saturating_sub(1) + random.bits() % 3;
    match random.below(8) {
        0 => 0,
        1 => random.bits() % 1_000,
        2 | 3 => about.min(HIGHEST_LIMIT),
        4 => HIGHEST_LIMIT - 1,
        _ => HIGHEST_LIMIT,
    }
}

/// An edit of any figure that is there, the names of a pair in either order. Some give the old value, which "still counts as an edit".
pub fn edit(random: &mut Random, n: u32, figures: &Figures) -> Request {
    let is_old = random.one_in(6);
    if n == 1 || random.one_in(2) {
        let k = random.within(1..=n);
        let old = figures.counts[k as usize - 1];
        let value = if is_old { old } else { random.number() };
        return Request::EditCount { k, value };
    }
    let i = random.within(1..=n);
    let j = (i - 1 + random.within(1..=n - 1)) % n + 1;
    let old = figures.divisors[place_of_pair(i, j)];
    let value = if is_old { old } else { random.number().max(1) };
    Request::EditPair { i, j, value }
}

/// Left parts that give a tree over n relations, and the sets of two or more that the walk meets. Other rows hold anything.
pub fn tree(random: &mut Random, n: u32) -> (Vec<u16>, Vec<usize>) {
    let mut lefts: Vec<u16> = (0..1 << n).map(|_| random.bits() as u16).collect();
    let mut met = Vec::new();
    let mut sets = vec![set_of_all(n)];
    while let Some(set) = sets.pop() {
        if set.count_ones() < 2 {
            continue;
        }
        let left = proper_part(random, set);
        lefts[set] = left as u16;
        met.push(set);
        sets.extend([left, set - left]);
    }
    (lefts, met)
}

fn proper_part(random: &mut Random, set: usize) -> usize {
    loop {
        let part = set & random.bits() as usize;
        if part != 0 && part != set {
            return part;
        }
    }
}

// ---- spoiled

/// A number of relations that is never allowed.
pub fn bad_relations(random: &mut Random) -> u32 {
    random.pick(&[0, MOST + 1, MOST + 2, 32, 64, u32::MAX])
}

/// Overwrites some rows of the table: "it trusts nothing about the other rows".
pub fn damage(random: &mut Random, table: &mut Columns) {
    for _ in 0..1 + random.below(4) {
        let at = random.below(table.sizes.len());
        table.sizes[at] = random.number();
        let at = random.below(table.costs.len());
        table.costs[at] = any_cost(random);
        let at = random.below(table.lefts.len());
        table.lefts[at] = random.bits() as u16;
    }
}

/// Gives a sound call a fault that is refused, or several: then the order of the refusals tells which is answered.
pub fn spoil(random: &mut Random, call: &mut Call) {
    for _ in 0..1 + random.below(3) {
        match random.below(9) {
            0 => call.job.n = bad_relations(random),
            1 => call.job.n = call.job.n.wrapping_add(random.pick(&[1, u32::MAX])),
            2 => resize(random, &mut call.figures.counts),
            3 => resize(random, &mut call.figures.divisors),
            4 => spoil_divisor(random, &mut call.figures.divisors),
            5 => call.job.model = random.pick(&[3, 4, 255, 256, 1 << 16, u32::MAX]),
            6 => call.job.limit = random.pick(&[HIGHEST_LIMIT + 1, NO_PLAN - 1, NO_PLAN]),
            7 => shorten_column(random, call.job.n, &mut call.table),
            _ => spoil_request(random, call.job.n, &mut call.request),
        }
    }
}

fn resize(random: &mut Random, figures: &mut Vec<u32>) {
    match random.below(3) {
        0 => figures.clear(),
        1 => drop(figures.pop()),
        _ => figures.push(random.number()),
    }
}

fn spoil_divisor(random: &mut Random, divisors: &mut [u32]) {
    if !divisors.is_empty() {
        divisors[random.below(divisors.len())] = 0;
    }
}

fn shorten_column(random: &mut Random, n: u32, table: &mut Columns) {
    let rows = 1 << n.min(MOST);
    let short = random.pick(&[0, 1, rows / 2, rows - 1]);
    match random.below(3) {
        0 => table.sizes.truncate(short),
        1 => table.costs.truncate(short),
        _ => table.lefts.truncate(short),
    }
}

fn spoil_request(random: &mut Random, n: u32, request: &mut Request) {
    let bad_name = random.pick(&[0, n.wrapping_add(1), MOST + 1, 32, 33, u32::MAX]);
    match request {
        Request::Fill => {}
        Request::EditCount { k, .. } => *k = bad_name,
        Request::EditPair { i, j, value } => match random.below(4) {
            0 => *i = bad_name,
            1 => *j = bad_name,
            2 => *i = *j,
            _ => *value = 0,
        },
    }
}
