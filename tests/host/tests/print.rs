//! Prints of trees of every shape and of tables that hold none, against the model.

use host::model::{set_of_all, tree, NO_PLAN};
use host::random::{cases, Random};
use host::tally::Tally;
use host::{exports, inputs};

fn main() {
    let mut prints = Tally::default();
    cases("trees of 1 to 8 relations", 60_000, |random| {
        let n = random.within(1..=8);
        one_print(random, n, &mut prints);
    });
    cases("trees of 9 to 15 relations", 3_000, |random| {
        let n = random.within(9..=15);
        one_print(random, n, &mut prints);
    });
    prints.report("prints", &[0, 1, 6, 7, 9, 10], 100);
}

/// All that print is called with.
#[derive(Clone, Debug)]
struct Call {
    n: u32,
    costs: Vec<u64>,
    lefts: Vec<u16>,
    room: Vec<u8>,
}

fn one_print(random: &mut Random, n: u32, prints: &mut Tally) {
    let (lefts, met) = inputs::tree(random, n);
    let mut call = Call {
        n,
        costs: vec![NO_PLAN; (1 << n) + random.below(3)],
        lefts,
        room: (0..tree::needed(n) + random.below(8))
            .map(|_| random.bits() as u8)
            .collect(),
    };
    // "7 when the full row's cost is 2^64-1": what the other rows cost is nothing to print.
    call.costs[set_of_all(n)] = random.pick(&[0, 1, NO_PLAN - 1, NO_PLAN >> 1]);
    for _ in 0..random.below(4) {
        spoil(random, &met, &mut call);
    }
    agree(&call, prints);
}

fn spoil(random: &mut Random, met: &[usize], call: &mut Call) {
    let rows = 1 << call.n.min(15);
    let shorter = random.pick(&[0, rows / 2, rows - 1]);
    match random.below(10) {
        0 => call.n = inputs::bad_relations(random),
        1 => call.costs.truncate(shorter),
        2 => call.lefts.truncate(shorter),
        3 => drop(call.room.drain(random.below(call.room.len() + 1)..)),
        4 => set(&mut call.costs, rows - 1, NO_PLAN),
        // A row that the walk may not meet.
        5 => set(&mut call.lefts, random.below(rows), random.bits() as u16),
        _ if met.is_empty() => {}
        _ => spoil_met(random, met, &mut call.lefts),
    }
}

/// A set on the walk gets a left part that is empty, the whole set, or not inside it; or another that may be sound.
fn spoil_met(random: &mut Random, met: &[usize], lefts: &mut [u16]) {
    let at = random.pick(met);
    let other = 1 << random.below(16);
    let part = at & random.bits() as usize;
    let left = random.pick(&[0, at, other, at ^ other, at | other, part]);
    set(lefts, at, left as u16);
}

/// Nothing is set in a column that has been shortened below its row.
fn set<T>(column: &mut [T], row: usize, value: T) {
    if let Some(place) = column.get_mut(row) {
        *place = value;
    }
}

/// The number, the length and every byte of the room are the model's.
fn agree(call: &Call, prints: &mut Tally) {
    let mut by_model = call.room.clone();
    let expected = tree::print(call.n, &call.costs, &call.lefts, &mut by_model);
    let mut by_code = call.room.clone();
    let found = exports::print(call.n, &call.costs, &call.lefts, &mut by_code);
    assert_eq!(found, expected, "the answer to {call:?}");
    assert_eq!(by_code, by_model, "the room after {call:?}");
    prints.count(found.number);
}
