//! The two plots: the grid, after document 002's Figure 4, and the growth with n.

use crate::drawing::{Axis, Drawing, Line, Panel, Style};
use crate::grid::{Cell, Topology, FEWEST, GROWING, MODELS, MOST, VARIABILITIES};
use crate::measure::{Results, FILL};

const OURS: &str = "#1f5fbf";
const NESTED: &str = "#e07b00";
const REFERENCE: &str = "#888888";
const NO_DASHES: &str = "";
const DASHES: [&str; 3] = [NO_DASHES, "6 3", "1.5 2.5"];

fn style(colour: &'static str, dashes: &'static str) -> Style {
    Style {
        colour,
        width: 1.6,
        dashes,
    }
}

fn model_name(model: u32) -> &'static str {
    ["naive", "sort-merge", "nested loops on disk"][model as usize]
}

/// A cell with our fill's time and the nested loop's in C.
struct Timed {
    cell: Cell,
    ours: f64,
    nested: f64,
}

fn times_of(results: &Results) -> Vec<Timed> {
    let times = results.medians(FILL).into_iter().zip(results.nested_c());
    let cells = results.cells.iter().map(|(cell, _)| *cell);
    let of_cell = |(cell, (ours, nested))| Timed { cell, ours, nested };
    cells.zip(times).map(of_cell).collect()
}

// ---- The grid

pub fn grid(results: &Results) -> String {
    let timed = times_of(results);
    let mut panels = Vec::new();
    for model in MODELS {
        for topology in Topology::ALL {
            panels.push(grid_panel(&timed, model, topology));
        }
    }
    let drawing = Drawing {
        title: "Time of a fill of 15 relations, by mean row count and variability".to_string(),
        columns: Topology::ALL.len(),
        panels,
        legend: grid_legend(),
    };
    drawing.svg()
}

fn grid_legend() -> Vec<(String, Style)> {
    let mut legend = Vec::new();
    for (who, colour) in [("ours", OURS), ("nested C", NESTED)] {
        for (variability, dashes) in VARIABILITIES.into_iter().zip(DASHES) {
            legend.push((
                format!("{who}, variability {variability}"),
                style(colour, dashes),
            ));
        }
    }
    legend
}

fn grid_panel(timed: &[Timed], model: u32, topology: Topology) -> Panel {
    let highest = timed
        .iter()
        .filter(|at| at.cell.model == model)
        .map(|at| at.nested.max(at.ours))
        .fold(0.0, f64::max);
    let here: Vec<&Timed> = timed
        .iter()
        .filter(|at| at.cell.model == model && at.cell.topology == topology)
        .collect();
    let mut lines = Vec::new();
    for (variability, dashes) in VARIABILITIES.into_iter().zip(DASHES) {
        // At mean 1 there is one input for all variabilities.
        let on: Vec<&&Timed> = here
            .iter()
            .filter(|at| at.cell.variability == variability || at.cell.mean == 1.0)
            .collect();
        let line = |colour, time: fn(&Timed) -> f64| Line {
            style: style(colour, dashes),
            points: on.iter().map(|at| (at.cell.mean, time(at))).collect(),
        };
        lines.push(line(NESTED, |at| at.nested));
        lines.push(line(OURS, |at| at.ours));
    }
    Panel {
        title: format!("{}, {}", topology.name(), model_name(model)),
        x: means_axis(),
        y: milliseconds_from_zero(highest),
        lines,
    }
}

fn means_axis() -> Axis {
    let ticks = [(1.0, "1"), (1e2, "100"), (1e4, "10,000")];
    Axis {
        label: "mean row count".to_string(),
        low: 1.0,
        high: 46_416.0,
        logarithmic: true,
        ticks: ticks
            .map(|(number, text)| (number, text.to_string()))
            .to_vec(),
    }
}

fn milliseconds_from_zero(highest: f64) -> Axis {
    let step = round_step(highest / 4.0);
    let steps = (highest / step).ceil();
    let tick = |at: u32| (f64::from(at) * step, format!("{}", f64::from(at) * step));
    Axis {
        label: "milliseconds".to_string(),
        low: 0.0,
        high: steps * step,
        logarithmic: false,
        ticks: (0..=steps as u32).map(tick).collect(),
    }
}

/// The least of 1, 2 and 5 times a power of ten that is not below the number.
fn round_step(number: f64) -> f64 {
    let power = 10f64.powf(number.log10().floor());
    let steps = [1.0, 2.0, 5.0, 10.0].map(|factor| factor * power);
    steps
        .into_iter()
        .find(|step| *step >= number)
        .unwrap_or(10.0 * power)
}

// ---- The growth

pub fn growth(results: &Results) -> String {
    let timed = times_of(results);
    let mut panels = Vec::new();
    for model in MODELS {
        for topology in GROWING {
            panels.push(growth_panel(&timed, model, topology));
        }
    }
    let drawing = Drawing {
        title: "Time of a fill by the number of relations, at mean 100 and variability 0.5"
            .to_string(),
        columns: GROWING.len(),
        panels,
        legend: vec![
            ("ours".to_string(), style(OURS, NO_DASHES)),
            ("nested C".to_string(), style(NESTED, NO_DASHES)),
            (
                "3^n, through ours at 15".to_string(),
                style(REFERENCE, DASHES[1]),
            ),
        ],
    };
    drawing.svg()
}

fn growth_panel(timed: &[Timed], model: u32, topology: Topology) -> Panel {
    let here: Vec<&Timed> = timed
        .iter()
        .filter(|at| at.cell.model == model && at.cell.topology == topology)
        .collect();
    let last = here
        .iter()
        .find(|at| at.cell.n == MOST)
        .expect("the most relations are measured")
        .ours;
    let line = |colour, dashes, time: &dyn Fn(&Timed) -> f64| Line {
        style: style(colour, dashes),
        points: here.iter().map(|at| (at.cell.n as f64, time(at))).collect(),
    };
    Panel {
        title: format!("{}, {}", topology.name(), model_name(model)),
        x: relations_axis(),
        y: milliseconds_by_powers(timed),
        lines: vec![
            line(REFERENCE, DASHES[1], &|at| {
                last * 3f64.powi(at.cell.n as i32 - MOST as i32)
            }),
            line(NESTED, NO_DASHES, &|at| at.nested),
            line(OURS, NO_DASHES, &|at| at.ours),
        ],
    }
}

fn relations_axis() -> Axis {
    Axis {
        label: "relations".to_string(),
        low: FEWEST as f64,
        high: MOST as f64,
        logarithmic: false,
        ticks: (FEWEST..=MOST)
            .step_by(2)
            .map(|n| (n as f64, n.to_string()))
            .collect(),
    }
}

/// From the power of ten below the least time to the one above the greatest.
fn milliseconds_by_powers(timed: &[Timed]) -> Axis {
    let times = || timed.iter().flat_map(|at| [at.ours, at.nested]);
    let lowest = times().fold(f64::INFINITY, f64::min).log10().floor() as i32;
    let highest = times().fold(0.0, f64::max).log10().ceil() as i32;
    let tick = |power: i32| (10f64.powi(power), format!("{}", 10f64.powi(power)));
    Axis {
        label: "milliseconds".to_string(),
        low: 10f64.powi(lowest),
        high: 10f64.powi(highest),
        logarithmic: true,
        ticks: (lowest..=highest).map(tick).collect(),
    }
}
