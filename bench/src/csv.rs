//! A line for each cell: what it is, then each contender's median and quartiles in milliseconds.

use crate::grid::{mean_in_words, Cell};
use crate::measure::{Results, Spread};

pub fn lines(results: &Results) -> String {
    let rows = results
        .cells
        .iter()
        .map(|(cell, spreads)| line(cell, spreads));
    let mut all = vec![header(&results.names)];
    all.extend(rows);
    all.join("\n") + "\n"
}

fn header(names: &[String]) -> String {
    let of_contender = |name: &String| {
        let name = name.replace(' ', "_");
        format!("{name}_ms,{name}_ms_q1,{name}_ms_q3")
    };
    let contenders: Vec<String> = names.iter().map(of_contender).collect();
    format!("topology,n,model,mean,variability,{}", contenders.join(","))
}

fn line(cell: &Cell, spreads: &[Spread]) -> String {
    let of_contender = |spread: &Spread| {
        [spread.median, spread.low, spread.high]
            .map(digits)
            .join(",")
    };
    let times: Vec<String> = spreads.iter().map(of_contender).collect();
    format!(
        "{},{},{},{},{},{}",
        cell.topology.name(),
        cell.n,
        cell.model,
        mean_in_words(cell.mean),
        cell.variability,
        times.join(",")
    )
}

/// Four digits that count, whatever the size: a print takes microseconds, a fill milliseconds.
fn digits(number: f64) -> String {
    let places = (3.0 - number.log10().floor()).clamp(0.0, 9.0) as usize;
    format!("{number:.places$}")
}
