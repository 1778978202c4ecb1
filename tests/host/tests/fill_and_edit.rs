//! Fills and edits, and prints of the tables that they leave, against the model.

use host::inputs::{self, Call};
use host::model::table::{Columns, Figures, Job, Planned, Request};
use host::model::{tree, HIGHEST_LIMIT};
use host::random::{cases, Random};
use host::tally::Tally;
use host::{exports, model};

fn main() {
    let mut covered = Covered::default();
    // How many relations, how many tables, and how many edits of each at most.
    for (relations, tables, edits) in [
        (1..=5, 30_000, 6),
        (6..=8, 5_000, 6),
        (9..=12, 60, 3),
        (13..=14, 3, 1),
        (15..=15, 3, 1),
    ] {
        let what = format!("tables of {relations:?} relations");
        cases(&what, tables, |random| {
            let n = random.within(relations.clone());
            life_of_a_table(random, n, edits, &mut covered);
        });
    }
    let Covered {
        fills,
        edits,
        prints,
    } = covered;
    fills.report("fills", &[0, 1, 2, 3, 4, 5, 6, 7], 100);
    edits.report("edits", &[0, 1, 2, 3, 4, 5, 6, 7, 8], 100);
    prints.report("prints of these tables", &[0, 7, 10], 100);
}

#[derive(Default)]
struct Covered {
    fills: Tally,
    edits: Tally,
    prints: Tally,
}

/// One table through its life: filled or left as it was found, then edited, with damage to its rows and calls that are refused in between.
fn life_of_a_table(random: &mut Random, n: u32, edits: usize, covered: &mut Covered) {
    let mut call = start(random, n);
    // Few tables are large, and each of them is filled.
    if n > 12 || !random.one_in(4) {
        step(random, &mut call, covered);
    }
    for _ in 0..random.below(edits + 1) {
        if random.one_in(4) {
            inputs::damage(random, &mut call.table);
        }
        if random.one_in(4) {
            call.job = job(random, n, &call.figures);
        }
        call.request = inputs::edit(random, n, &call.figures);
        step(random, &mut call, covered);
    }
}

fn start(random: &mut Random, n: u32) -> Call {
    let figures = inputs::figures(random, n);
    Call {
        request: Request::Fill,
        job: job(random, n, &figures),
        figures,
        table: inputs::columns(random, n),
    }
}

/// A job whose limit may be about one of the costs that a fill without a limit gives.
fn job(random: &mut Random, n: u32, figures: &Figures) -> Job {
    let unlimited = Job {
        n,
        model: random.within(0..=2),
        limit: HIGHEST_LIMIT,
    };
    let mut table = Columns::zeros(n);
    model::table::plan(Request::Fill, unlimited, &mut figures.clone(), &mut table);
    Job {
        limit: inputs::limit(random, &table.costs),
        ..unlimited
    }
}

/// The call, after a spoiled copy of it that must leave no trace; then the table is printed.
fn step(random: &mut Random, call: &mut Call, covered: &mut Covered) {
    if random.one_in(2) {
        let mut spoiled = call.clone();
        inputs::spoil(random, &mut spoiled);
        agree(&mut spoiled, covered);
    }
    agree(call, covered);
    print_agrees(call.job.n, &call.table, &mut covered.prints);
}

/// The answer, the figures and all three columns are the model's. The call is left as it leaves them.
fn agree(call: &mut Call, covered: &mut Covered) {
    let mut by_model = call.clone();
    let expected = run(model::table::plan, &mut by_model);
    let mut by_code = call.clone();
    let found = run(exports::plan, &mut by_code);
    assert_eq!(found, expected, "the answer to {call:?}");
    assert_eq!(
        by_code.figures, by_model.figures,
        "the figures after {call:?}"
    );
    assert_eq!(by_code.table, by_model.table, "the table after {call:?}");
    match call.request {
        Request::Fill => covered.fills.count(found.number),
        _ => covered.edits.count(found.number),
    }
    *call = by_code;
}

type Plan = fn(Request, Job, &mut Figures, &mut Columns) -> Planned;

fn run(plan: Plan, call: &mut Call) -> Planned {
    plan(call.request, call.job, &mut call.figures, &mut call.table)
}

fn print_agrees(n: u32, table: &Columns, prints: &mut Tally) {
    let mut expected_room = [b'.'; 64];
    let expected = tree::print(n, &table.costs, &table.lefts, &mut expected_room);
    let mut room = [b'.'; 64];
    let found = exports::print(n, &table.costs, &table.lefts, &mut room);
    assert_eq!(
        (found, room),
        (expected, expected_room),
        "the text of {table:?}"
    );
    prints.count(found.number);
}
