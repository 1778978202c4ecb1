//! The contenders, and their times in a cell. All are run in one process and in turn, so that what slows the machine down for a while
//! slows down all of them.

use crate::grid::Cell;
use crate::job::{Columns, Job};
use crate::ratios::geometric_mean;
use crate::{c_forms, clock, exports, forms};

pub const FILL: &str = "ours fill";
pub const EDIT_COUNT: &str = "ours edit_count";
pub const EDIT_PAIR: &str = "ours edit_pair";
pub const PRINT: &str = "ours print";

/// What is edited, to its own value: document 01 lets such an edit count as any other, so that it does the whole work.
const RELATION: u32 = 8;
const PAIR: (u32, u32) = (5, 11);

pub struct Contender {
    pub name: String,
    run: Box<dyn Fn(&mut Job)>,
    /// Whether a run writes the row of a set.
    writes: fn(usize) -> bool,
}

impl Contender {
    fn new(name: &str, writes: fn(usize) -> bool, run: impl Fn(&mut Job) + 'static) -> Contender {
        Contender {
            name: name.to_string(),
            run: Box::new(run),
            writes,
        }
    }
}

/// Our fill, which the others are compared to, comes first.
pub fn fills() -> Vec<Contender> {
    let mut all = vec![Contender::new(FILL, |_| true, exports::fill)];
    for compiler in c_forms::compilers() {
        for (form, name) in compiler.forms() {
            let name = format!("{} {name}", compiler.name);
            all.push(Contender::new(&name, |_| true, compiler.fill(form)));
        }
    }
    for (name, fill) in forms::forms() {
        all.push(Contender::new(&format!("rust {name}"), |_| true, fill));
    }
    all
}

/// Our edits and our print, on the table that every fill leaves.
pub fn edits_and_print() -> Vec<Contender> {
    vec![
        Contender::new(
            EDIT_COUNT,
            |set| holds(set, RELATION),
            |job| {
                exports::edit_count(job, RELATION, job.figures.counts[RELATION as usize - 1]);
            },
        ),
        Contender::new(
            EDIT_PAIR,
            |set| holds(set, PAIR.0) && holds(set, PAIR.1),
            |job| {
                let place = (PAIR.1 - 1) * (PAIR.1 - 2) / 2 + PAIR.0 - 1;
                exports::edit_pair(job, PAIR.0, PAIR.1, job.figures.divisors[place as usize]);
            },
        ),
        Contender::new(PRINT, |_| false, exports::print),
    ]
}

fn holds(set: usize, relation: u32) -> bool {
    set >> (relation - 1) & 1 == 1
}

/// A median with its quartiles, in milliseconds.
#[derive(Clone, Copy)]
pub struct Spread {
    pub low: f64,
    pub median: f64,
    pub high: f64,
}

impl Spread {
    fn of(mut samples: Vec<f64>) -> Spread {
        samples.sort_by(f64::total_cmp);
        Spread {
            low: quantile(&samples, 0.25),
            median: quantile(&samples, 0.5),
            high: quantile(&samples, 0.75),
        }
    }
}

/// Between two samples by the share of the way.
fn quantile(sorted: &[f64], share: f64) -> f64 {
    let at = share * (sorted.len() - 1) as f64;
    let (below, above) = (sorted[at.floor() as usize], sorted[at.ceil() as usize]);
    below + (above - below) * at.fract()
}

/// Times of all contenders in all cells.
pub struct Results {
    pub names: Vec<String>,
    pub repetitions: usize,
    pub cells: Vec<(Cell, Vec<Spread>)>,
}

/// An error says which table differs from ours, and where.
pub fn measure(
    cells: &[Cell],
    contenders: &[Contender],
    repetitions: usize,
) -> Result<Results, String> {
    let mut measured: Vec<(Cell, Vec<Spread>)> = Vec::new();
    for cell in cells {
        tell_progress(measured.last().map(|(before, _)| before), cell);
        let mut job = Job::new(cell);
        compare(contenders, &mut job)
            .map_err(|what| format!("n {}, {}: {what}", cell.n, cell.name()))?;
        measured.push((*cell, steady_times(contenders, &mut job, repetitions)));
    }
    Ok(Results {
        names: contenders.iter().map(|c| c.name.clone()).collect(),
        repetitions,
        cells: measured,
    })
}

/// A line where the model or the topology changes: a full run takes its time.
fn tell_progress(before: Option<&Cell>, now: &Cell) {
    let kind = |cell: &Cell| (cell.model, cell.topology);
    if before.map(kind) != Some(kind(now)) {
        eprintln!("measuring model {}, {}", now.model, now.topology.name());
    }
}

/// Runs each contender once and holds its columns to ours. The rows that it is to write are spoiled first: what the contender before it
/// left would be right already. This run also warms everything up, and is not timed.
fn compare(contenders: &[Contender], job: &mut Job) -> Result<(), String> {
    exports::fill(job);
    let (ours, figures) = (job.columns.clone(), job.figures.clone());
    for contender in contenders {
        (0..1 << job.n)
            .filter(|&set| (contender.writes)(set))
            .for_each(|set| job.columns.spoil(set));
        (contender.run)(job);
        if let Some(set) = first_difference(&ours, &job.columns) {
            return Err(format!(
                "row {set} (size, cost, left part) is {:?} by {}, and {:?} by ours",
                job.columns.row(set),
                contender.name,
                ours.row(set)
            ));
        }
        assert_eq!(
            job.figures, figures,
            "{} changed the figures",
            contender.name
        );
    }
    Ok(())
}

fn first_difference(ours: &Columns, theirs: &Columns) -> Option<usize> {
    (0..ours.sizes.len()).find(|&set| ours.row(set) != theirs.row(set))
}

/// Quartiles further apart than this say that something else ran on the machine. A cell is then measured again, all contenders alike, a few
/// times at most, and the steadiest counts.
const STEADY: f64 = 1.05;
const ATTEMPTS: usize = 3;

fn steady_times(contenders: &[Contender], job: &mut Job, repetitions: usize) -> Vec<Spread> {
    let mut steadiest = take_times(contenders, job, repetitions);
    for _ in 1..ATTEMPTS {
        if unsteadiness(&steadiest) < STEADY {
            break;
        }
        let again = take_times(contenders, job, repetitions);
        if unsteadiness(&again) < unsteadiness(&steadiest) {
            steadiest = again;
        }
    }
    steadiest
}

/// How far the quartiles are apart, over all contenders.
fn unsteadiness(spreads: &[Spread]) -> f64 {
    geometric_mean(spreads.iter().map(|spread| spread.high / spread.low))
}

/// Each repetition runs every contender once, and begins with another one.
fn take_times(contenders: &[Contender], job: &mut Job, repetitions: usize) -> Vec<Spread> {
    let mut samples = vec![Vec::new(); contenders.len()];
    for repetition in 0..repetitions {
        for turn in 0..contenders.len() {
            let at = (turn + repetition) % contenders.len();
            samples[at].push(sample(&contenders[at], job));
        }
    }
    samples.into_iter().map(Spread::of).collect()
}

/// Milliseconds of one run. One that takes less than a millisecond is repeated until that has passed, since the clock would say little.
fn sample(contender: &Contender, job: &mut Job) -> f64 {
    let mut runs = 1;
    loop {
        let start = clock::milliseconds();
        for _ in 0..runs {
            (contender.run)(job);
        }
        let passed = clock::milliseconds() - start;
        if passed >= 1.0 {
            return passed / f64::from(runs);
        }
        runs *= 2;
    }
}
