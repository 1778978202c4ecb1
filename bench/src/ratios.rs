//! From times to ratios: ours to each of what it is compared to, in every cell.

use crate::grid::{Cell, MODELS};
use crate::measure::{Results, EDIT_COUNT, EDIT_PAIR, FILL};

/// The form in C and Rust that does what our search does, split by split.
const SAME_FORM: &str = "half_stepped";

/// A goal is empty where there is none. None is enforced: times are no test.
pub struct Ratio {
    pub name: String,
    pub goal_mean: &'static str,
    pub goal_worst: &'static str,
    pub cells: Vec<(Cell, f64)>,
}

impl Ratio {
    /// The geometric mean over the cells that are kept.
    pub fn mean(&self, keep: impl Fn(&Cell) -> bool) -> f64 {
        geometric_mean(
            self.cells
                .iter()
                .filter(|(cell, _)| keep(cell))
                .map(|(_, ratio)| *ratio),
        )
    }

    pub fn worst(&self) -> (Cell, f64) {
        let by_ratio = |a: &&(Cell, f64), b: &&(Cell, f64)| a.1.total_cmp(&b.1);
        *self.cells.iter().max_by(by_ratio).expect("there are cells")
    }
}

pub fn geometric_mean(numbers: impl Iterator<Item = f64>) -> f64 {
    let (sum, count) = numbers.fold((0.0, 0), |(sum, count), x| (sum + x.ln(), count + 1));
    (sum / f64::from(count)).exp()
}

impl Results {
    fn index(&self, name: &str) -> usize {
        let found = self.names.iter().position(|known| known == name);
        found.unwrap_or_else(|| panic!("there is no contender {name}"))
    }

    /// A contender's medians, cell by cell.
    pub fn medians(&self, name: &str) -> Vec<f64> {
        let at = self.index(name);
        self.cells
            .iter()
            .map(|(_, spreads)| spreads[at].median)
            .collect()
    }

    /// The geometric mean of a contender's medians under one model.
    pub fn mean_under(&self, name: &str, model: u32) -> f64 {
        let medians = self.medians(name);
        let under = self
            .cells
            .iter()
            .zip(&medians)
            .filter(|((cell, _), _)| cell.model == model);
        geometric_mean(under.map(|(_, median)| *median))
    }

    /// The C forms, of every compiler.
    fn c_forms(&self) -> Vec<&str> {
        let others = ["ours ", "rust "];
        let is_c = |name: &&str| !others.iter().any(|other| name.starts_with(other));
        self.names.iter().map(String::as_str).filter(is_c).collect()
    }

    /// The paper's loop in C, by the compiler that does better in the cell.
    pub fn nested_c(&self) -> Vec<f64> {
        self.by_better_compiler("nested")
    }

    /// Cell by cell, the median of a C form by the compiler that does better there.
    fn by_better_compiler(&self, form: &str) -> Vec<f64> {
        let is_form = |name: &&str| name.split_once(' ').is_some_and(|(_, known)| known == form);
        let names: Vec<&str> = self.c_forms().into_iter().filter(is_form).collect();
        self.least(&names)
    }

    /// Cell by cell, the least median of some contenders.
    fn least(&self, names: &[&str]) -> Vec<f64> {
        let all: Vec<Vec<f64>> = names.iter().map(|name| self.medians(name)).collect();
        let least_at = |at: usize| {
            all.iter()
                .map(|medians| medians[at])
                .fold(f64::INFINITY, f64::min)
        };
        (0..self.cells.len()).map(least_at).collect()
    }

    /// The C form and compiler with the least geometric mean under a model.
    pub fn best_c(&self, model: u32) -> &str {
        let by_mean = |a: &&str, b: &&str| {
            self.mean_under(a, model)
                .total_cmp(&self.mean_under(b, model))
        };
        self.c_forms()
            .into_iter()
            .min_by(by_mean)
            .expect("there are C forms")
    }

    /// For each cell, the median of its model's best C form.
    fn best_c_medians(&self) -> Vec<f64> {
        let best = MODELS.map(|model| self.medians(self.best_c(model)));
        let median_at = |(at, (cell, _)): (usize, &(Cell, _))| best[cell.model as usize][at];
        self.cells.iter().enumerate().map(median_at).collect()
    }

    fn ratio(&self, name: &str, goals: [&'static str; 2], above: &[f64], below: &[f64]) -> Ratio {
        let ratios = above.iter().zip(below).map(|(a, b)| a / b);
        Ratio {
            name: name.to_string(),
            goal_mean: goals[0],
            goal_worst: goals[1],
            cells: self
                .cells
                .iter()
                .map(|(cell, _)| *cell)
                .zip(ratios)
                .collect(),
        }
    }

    pub fn ratios(&self) -> Vec<Ratio> {
        let mut all = self.fill_ratios();
        all.extend(self.edit_ratios());
        all
    }

    fn fill_ratios(&self) -> Vec<Ratio> {
        let fill = self.medians(FILL);
        let to = |name, goals, below: Vec<f64>| self.ratio(name, goals, &fill, &below);
        let best_of_cell = self.least(&self.c_forms());
        vec![
            to(
                "fill / nested C, better compiler",
                ["0.42", "0.65"],
                self.nested_c(),
            ),
            to(
                "fill / same form in C, better compiler",
                ["1.00", ""],
                self.by_better_compiler(SAME_FORM),
            ),
            to(
                "fill / best C form of the model",
                ["", ""],
                self.best_c_medians(),
            ),
            to("fill / best C form of the cell", ["", ""], best_of_cell),
            to("fill / nested Rust", ["", ""], self.medians("rust nested")),
            to(
                "fill / same form in Rust",
                ["", ""],
                self.medians(&format!("rust {SAME_FORM}")),
            ),
        ]
    }

    /// An edit of a count does 2/3 of a fill's work, one of a pair 4/9: five in a hundred are allowed for the rest.
    fn edit_ratios(&self) -> Vec<Ratio> {
        let fill = self.medians(FILL);
        let of = |name, goals, edit: &str| self.ratio(name, goals, &self.medians(edit), &fill);
        vec![
            of("edit_count / fill", ["0.70", "0.70"], EDIT_COUNT),
            of("edit_pair / fill", ["0.467", "0.467"], EDIT_PAIR),
        ]
    }
}
