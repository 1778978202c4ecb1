//! The speed of the compiled functions, beside the same row rule in C and in Rust, over document 002's grid of inputs. Run by `bench/run`.

mod c_forms;
mod clock;
mod csv;
mod drawing;
mod exports;
mod forms;
mod grid;
mod job;
mod measure;
mod plots;
mod ratios;
mod summary;

use measure::{edits_and_print, fills, measure};
use std::fs;
use std::process::exit;

const FOLDER: &str = "docs/speed";

/// Of a full run. It takes ten to twenty minutes, and a quick one two to five.
const REPETITIONS: usize = 5;

fn main() {
    let arguments: Vec<String> = std::env::args().skip(1).collect();
    let done = match arguments.iter().map(String::as_str).collect::<Vec<_>>()[..] {
        [] => everything(),
        ["--quick"] => quick(),
        _ => Err("usage: bench/run [--quick]".to_string()),
    };
    if let Err(what) = done {
        eprintln!("{what}");
        exit(1);
    }
}

fn quick() -> Result<(), String> {
    let contenders: Vec<_> = fills().into_iter().chain(edits_and_print()).collect();
    let results = measure(&grid::grid(&[0.5]), &contenders, 3)?;
    println!("{}", summary::printed(&results));
    Ok(())
}

fn everything() -> Result<(), String> {
    let contenders: Vec<_> = fills().into_iter().chain(edits_and_print()).collect();
    let results = measure(&grid::grid(&grid::VARIABILITIES), &contenders, REPETITIONS)?;
    let growth = measure(&grid::growth(), &fills(), REPETITIONS)?;
    fs::create_dir_all(FOLDER).map_err(|error| format!("{FOLDER}: {error}"))?;
    write("grid.csv", &csv::lines(&results))?;
    write("growth.csv", &csv::lines(&growth))?;
    write("grid.svg", &plots::grid(&results))?;
    write("growth.svg", &plots::growth(&growth))?;
    write("summary.md", &summary::page(&results))?;
    println!("{}\nWritten to {FOLDER}.", summary::printed(&results));
    Ok(())
}

fn write(name: &str, text: &str) -> Result<(), String> {
    fs::write(format!("{FOLDER}/{name}"), text).map_err(|error| format!("{FOLDER}/{name}: {error}"))
}
