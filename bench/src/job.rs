//! What every contender works on: a cell's figures and the three lent columns.

use crate::grid::Cell;

/// No tree is dearer than this, so none is refused for its cost alone.
pub const LIMIT: u64 = 1 << 60;

#[derive(Clone, PartialEq, Debug)]
pub struct Figures {
    pub counts: Vec<u32>,
    pub divisors: Vec<u32>,
}

#[derive(Clone, PartialEq)]
pub struct Columns {
    pub sizes: Vec<u32>,
    pub costs: Vec<u64>,
    pub lefts: Vec<u16>,
}

impl Columns {
    pub fn new(n: usize) -> Columns {
        let rows = 1 << n;
        Columns {
            sizes: vec![0; rows],
            costs: vec![0; rows],
            lefts: vec![0; rows],
        }
    }

    pub fn row(&self, set: usize) -> (u32, u64, u16) {
        (self.sizes[set], self.costs[set], self.lefts[set])
    }

    /// Puts into a row what no fill does, so that a row that is not written again is found.
    pub fn spoil(&mut self, set: usize) {
        self.sizes[set] = 0xAAAA_AAAA;
        self.costs[set] = 0xAAAA_AAAA_AAAA_AAAA;
        self.lefts[set] = 0xAAAA;
    }
}

/// One cell's work. The columns are the same for every contender, and are not cleared between calls.
pub struct Job {
    pub n: u32,
    pub model: u32,
    pub figures: Figures,
    pub columns: Columns,
    pub text: [u8; 64],
}

impl Job {
    pub fn new(cell: &Cell) -> Job {
        Job {
            n: cell.n as u32,
            model: cell.model,
            figures: cell.figures(),
            columns: Columns::new(cell.n),
            text: [0; 64],
        }
    }
}
