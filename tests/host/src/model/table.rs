//! Document 01, "Sizes" and "Rows of the table": fill and edits.

use super::{charges, holds, members, number_of_pairs, place_of_pair, set_of_all};
use super::{is_count_of_relations, HIGHEST_LIMIT, NO_PLAN};

#[derive(Clone, Debug, PartialEq)]
pub struct Figures {
    pub counts: Vec<u32>,
    pub divisors: Vec<u32>,
}

/// "Three lent columns, indexed by set number."
#[derive(Clone, Debug, PartialEq)]
pub struct Columns {
    pub sizes: Vec<u32>,
    pub costs: Vec<u64>,
    pub lefts: Vec<u16>,
}

impl Columns {
    /// Columns for n relations that nothing has been written to.
    pub fn zeros(n: u32) -> Columns {
        let rows = 1 << n;
        Columns {
            sizes: vec![0; rows],
            costs: vec![0; rows],
            lefts: vec![0; rows],
        }
    }
}

#[derive(Clone, Copy, Debug)]
pub struct Job {
    pub n: u32,
    pub model: u32,
    pub limit: u64,
}

#[derive(Clone, Copy, Debug)]
pub enum Request {
    Fill,
    EditCount { k: u32, value: u32 },
    EditPair { i: u32, j: u32, value: u32 },
}

#[derive(Clone, Copy, Debug, PartialEq)]
pub struct Planned {
    pub number: u32,
    pub cost: u64,
    pub size: u32,
}

/// "From fill and edit only answer 0 gives a cost and size; otherwise both are 0."
fn refused(number: u32) -> Planned {
    Planned {
        number,
        cost: 0,
        size: 0,
    }
}

/// A fill or an edit: what it answers, with the figures and the columns as it leaves them.
pub fn plan(request: Request, job: Job, figures: &mut Figures, table: &mut Columns) -> Planned {
    if let Some(number) = refusal(request, job, figures, table) {
        return refused(number);
    }
    store(request, figures);
    for set in 0..=set_of_all(job.n) {
        if is_touched(request, set) {
            write_row(set, job, figures, table);
        }
    }
    let all = set_of_all(job.n);
    if table.costs[all] == NO_PLAN {
        return refused(7);
    }
    Planned {
        number: 0,
        cost: table.costs[all],
        size: table.sizes[all],
    }
}

/// "Order for fill and edit: 1, 2, 3, 4, 5, 6, 8 (edit only)."
fn refusal(request: Request, job: Job, figures: &Figures, table: &Columns) -> Option<u32> {
    let n = job.n;
    if !is_count_of_relations(n) {
        return Some(1);
    }
    if figures.counts.len() != n as usize || figures.divisors.len() != number_of_pairs(n) {
        return Some(2);
    }
    let new_is_zero = matches!(request, Request::EditPair { value: 0, .. });
    if new_is_zero || figures.divisors.contains(&0) {
        return Some(3);
    }
    if !charges::is_model(job.model) {
        return Some(4);
    }
    if job.limit > HIGHEST_LIMIT {
        return Some(5);
    }
    let rows = 1 << n;
    if table.sizes.len() < rows || table.costs.len() < rows || table.lefts.len() < rows {
        return Some(6);
    }
    if !is_named_well(request, n) {
        return Some(8);
    }
    None
}

/// The opposite of "relation not 1 to n, or a pair of one relation".
fn is_named_well(request: Request, n: u32) -> bool {
    let is_relation = |k: u32| (1..=n).contains(&k);
    match request {
        Request::Fill => true,
        Request::EditCount { k, .. } => is_relation(k),
        Request::EditPair { i, j, .. } => is_relation(i) && is_relation(j) && i != j,
    }
}

/// "An edit stores the new figure."
fn store(request: Request, figures: &mut Figures) {
    match request {
        Request::Fill => {}
        Request::EditCount { k, value } => figures.counts[k as usize - 1] = value,
        Request::EditPair { i, j, value } => figures.divisors[place_of_pair(i, j)] = value,
    }
}

/// "The sets holding the changed relation or both relations of the pair"; in a fill, all.
fn is_touched(request: Request, set: usize) -> bool {
    match request {
        Request::Fill => true,
        Request::EditCount { k, .. } => holds(set, k),
        Request::EditPair { i, j, .. } => holds(set, i) && holds(set, j),
    }
}

fn write_row(set: usize, job: Job, figures: &Figures, table: &mut Columns) {
    let (size, (cost, left)) = match set.count_ones() {
        0 => (0, (0, 0)),
        1 => (figures.counts[lowest(set) as usize - 1], (0, 0)),
        _ => {
            let size = size_of_larger(set, figures, table);
            (size, best_split(set, size, job, table))
        }
    };
    table.sizes[set] = size;
    table.costs[set] = cost;
    table.lefts[set] = left;
}

fn lowest(set: usize) -> u32 {
    members(set).next().expect("the set is not empty")
}

/// The size of a set of two or more: "multiply the size of V, as stored, by r's row count from the figures; divide by the product of the
/// divisors between r and each member of V, rounding up once; hold the result at 4,294,967,295".
fn size_of_larger(set: usize, figures: &Figures, table: &Columns) -> u32 {
    let r = lowest(set);
    let v = set - (1 << (r - 1));
    let rows = u128::from(table.sizes[v]) * u128::from(figures.counts[r as usize - 1]);
    // 14 divisors can pass 128 bits. A product that is held there is still above any number of rows, which has 64 bits at most.
    let divisor = members(v)
        .map(|k| u128::from(figures.divisors[place_of_pair(r, k)]))
        .fold(1, u128::saturating_mul);
    u32::try_from(rows.div_ceil(divisor)).unwrap_or(u32::MAX)
}

/// The cost and the left part: "of the usable splits the cheapest is recorded, and among equals the left part with the least number".
fn best_split(set: usize, size: u32, job: Job, table: &Columns) -> (u64, u16) {
    let is_usable = |cost: u128| cost <= u128::from(job.limit);
    let mut best = (NO_PLAN, 0);
    for left in (1..set).filter(|left| left & set == *left) {
        let right = set - left;
        let (left_cost, right_cost) = (
            u128::from(table.costs[left]),
            u128::from(table.costs[right]),
        );
        if !is_usable(left_cost) || !is_usable(right_cost) {
            continue;
        }
        let charge = charges::charge(job.model, table.sizes[left], table.sizes[right], size);
        let total = left_cost + right_cost + charge;
        // Only a lower cost is taken: of equals the first stays, which has the least left part.
        if is_usable(total) && total < u128::from(best.0) {
            best = (total as u64, left as u16);
        }
    }
    best
}
