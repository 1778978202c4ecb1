//! The inputs: document 002's grid of topologies, mean cardinalities and variabilities, put into document 01's whole numbers.

use crate::job::Figures;

/// R_0 of document 002 is relation 1 of document 01, and so on: here relations are counted from 0.
type Predicate = (usize, usize);

#[derive(Clone, Copy, PartialEq, Eq, Debug)]
pub enum Topology {
    Chain,
    CyclePlus3,
    Star,
    Clique,
}

impl Topology {
    pub const ALL: [Topology; 4] = [
        Topology::Chain,
        Topology::CyclePlus3,
        Topology::Star,
        Topology::Clique,
    ];

    pub fn name(self) -> &'static str {
        match self {
            Topology::Chain => "chain",
            Topology::CyclePlus3 => "cycle+3",
            Topology::Star => "star",
            Topology::Clique => "clique",
        }
    }

    fn predicates(self, n: usize) -> Vec<Predicate> {
        match self {
            Topology::Chain => chain(n),
            Topology::CyclePlus3 => {
                assert_eq!(n, 15, "document 002 adds its predicates to a chain of 15");
                [chain(n), vec![(0, 7), (8, 14), (1, 6), (9, 13)]].concat()
            }
            Topology::Star => (0..n - 1).map(|i| (i, n - 1)).collect(),
            Topology::Clique => (0..n).flat_map(|j| (0..j).map(move |i| (i, j))).collect(),
        }
    }
}

/// The first half of the relations, the greater one, interleaved with the others: R_0 - R_8 - R_1 - R_9 and so on.
fn chain(n: usize) -> Vec<Predicate> {
    let half = n.div_ceil(2);
    let order: Vec<usize> = (0..n)
        .map(|at| at / 2 + if at % 2 == 0 { 0 } else { half })
        .collect();
    order.windows(2).map(|next| (next[0], next[1])).collect()
}

/// One input under one model.
#[derive(Clone, Copy, PartialEq, Debug)]
pub struct Cell {
    pub n: usize,
    pub topology: Topology,
    pub model: u32,
    pub mean: f64,
    pub variability: f64,
}

impl Cell {
    pub fn name(&self) -> String {
        format!(
            "{}, model {}, mean {}, variability {}",
            self.topology.name(),
            self.model,
            mean_in_words(self.mean),
            self.variability
        )
    }

    pub fn figures(&self) -> Figures {
        let cardinalities = self.cardinalities();
        Figures {
            counts: cardinalities.iter().map(|&c| whole(c)).collect(),
            divisors: self.divisors(&cardinalities),
        }
    }

    /// From mean^(1 - variability) upwards by a constant ratio, so that the geometric mean is the mean.
    fn cardinalities(&self) -> Vec<f64> {
        let lowest = self.mean.powf(1.0 - self.variability);
        let ratio = (self.mean / lowest).powf(2.0 / (self.n - 1) as f64);
        (0..self.n).map(|i| lowest * ratio.powi(i as i32)).collect()
    }

    /// The divisor is the nearest whole number to 1/selectivity, from the cardinalities before they are rounded.
    fn divisors(&self, cardinalities: &[f64]) -> Vec<u32> {
        let predicates = self.topology.predicates(self.n);
        let incident = |i: usize| predicates.iter().filter(|p| p.0 == i || p.1 == i).count();
        let share = |i: usize| cardinalities[i].powf(-1.0 / incident(i) as f64);
        let mut divisors = vec![1; self.n * (self.n - 1) / 2];
        for &(i, j) in &predicates {
            let selectivity = self.mean.powf(1.0 / predicates.len() as f64) * share(i) * share(j);
            divisors[place(i, j)] = whole(1.0 / selectivity).max(1);
        }
        divisors
    }
}

fn whole(number: f64) -> u32 {
    let rounded = number.round();
    assert!(rounded <= f64::from(u32::MAX), "{number} passes 32 bits");
    rounded as u32
}

/// Document 01's place of the pair of relations i+1 and j+1.
fn place(i: usize, j: usize) -> usize {
    let (i, j) = (i.min(j), i.max(j));
    j * (j - 1) / 2 + i
}

/// Three digits, which is as many as tell the means apart.
pub fn mean_in_words(mean: f64) -> String {
    match mean {
        m if m < 10.0 => format!("{}", (m * 100.0).round() / 100.0),
        m if m < 100.0 => format!("{}", (m * 10.0).round() / 10.0),
        m => format!("{}", m.round()),
    }
}

/// Means 10^(2i/3). The next one, at variability 1, would pass 32 bits.
pub fn means() -> Vec<f64> {
    (0..8)
        .map(|i| 10f64.powf(f64::from(i) * 2.0 / 3.0))
        .collect()
}

pub const MODELS: [u32; 3] = [0, 1, 2];
pub const VARIABILITIES: [f64; 3] = [0.0, 0.5, 1.0];

/// The cells of document 002's Figure 4. At mean 1 every variability is the same input, and only 0 is taken.
pub fn grid(variabilities: &[f64]) -> Vec<Cell> {
    let mut cells = Vec::new();
    for model in MODELS {
        for topology in Topology::ALL {
            for mean in means() {
                let taken = if mean == 1.0 { &[0.0] } else { variabilities };
                cells.extend(taken.iter().map(|&variability| Cell {
                    n: 15,
                    topology,
                    model,
                    mean,
                    variability,
                }));
            }
        }
    }
    cells
}

pub const GROWING: [Topology; 3] = [Topology::Chain, Topology::Star, Topology::Clique];
pub const FEWEST: usize = 5;
pub const MOST: usize = 15;

/// The cells that differ in n alone, for each model and topology.
pub fn growth() -> Vec<Cell> {
    let mut cells = Vec::new();
    for model in MODELS {
        for topology in GROWING {
            cells.extend((FEWEST..=MOST).map(|n| Cell {
                n,
                topology,
                model,
                mean: 100.0,
                variability: 0.5,
            }));
        }
    }
    cells
}
