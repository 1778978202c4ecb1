//! The ratios in words: a few lines to print, and a page to keep.

use crate::grid::{Topology, MODELS};
use crate::measure::{Results, FILL, PRINT};
use crate::ratios::{geometric_mean, Ratio};
use std::fmt::Write;
use std::process::Command;

/// What is printed at the end of a run.
pub fn printed(results: &Results) -> String {
    let mut text = format!("{}\n\n", how(results));
    let _ = writeln!(
        text,
        "{:<40}{:>16}{:>18}   {:<22} worst cell",
        "", "mean (goal)", "worst (goal)", "model 0      1      2"
    );
    for ratio in results.ratios() {
        let _ = writeln!(text, "{}", printed_ratio(&ratio));
    }
    let _ = write!(text, "\n{}\n{}", best_forms(results), print_time(results));
    text
}

fn how(results: &Results) -> String {
    format!(
        "Medians of {} repetitions in {} cells of 15 relations; means are geometric, over cells. All contenders take turns in\n\
         one process, on the same three columns, which are warm and not cleared before a call. Times are processor time.",
        results.repetitions,
        results.cells.len()
    )
}

fn printed_ratio(ratio: &Ratio) -> String {
    let (cell, worst) = ratio.worst();
    let by_model = MODELS.map(|model| format!("{:.3}", ratio.mean(|cell| cell.model == model)));
    format!(
        "{:<40}{:>16}{:>18}   {:<22} {}",
        ratio.name,
        with_goal(ratio.mean(|_| true), ratio.goal_mean),
        with_goal(worst, ratio.goal_worst),
        by_model.join("  "),
        cell.name()
    )
}

fn with_goal(number: f64, goal: &str) -> String {
    let beside = match goal {
        "" => String::new(),
        goal => format!(" ({goal})"),
    };
    format!("{number:.3}{beside:<8}")
}

fn best_forms(results: &Results) -> String {
    let of_model = |model| {
        let best = results.best_c(model);
        format!(
            "model {model} {best}, {:.2} ms",
            results.mean_under(best, model)
        )
    };
    format!("Best C forms: {}.", MODELS.map(of_model).join("; "))
}

fn print_time(results: &Results) -> String {
    let times = results.medians(PRINT);
    let longest = times.iter().copied().fold(0.0, f64::max);
    format!(
        "Print: {:.2} microseconds, {:.2} at most.",
        geometric_mean(times.into_iter()) * 1e3,
        longest * 1e3
    )
}

// ---- The page

pub fn page(results: &Results) -> String {
    [
        "# Speed\n\nMade by `bench/run`, which measures, prints this page's figures and writes this folder.\n".to_string(),
        format!("{}\n", how(results)),
        machine(),
        ratios_table(results),
        topologies_table(results),
        forms_table(results),
        files(),
    ]
    .join("\n")
}

fn machine() -> String {
    let versions = ["gcc", "clang", "rustc"].map(|tool| format!("- {}\n", first_line(tool)));
    format!("Measured with\n\n- {}\n{}", processor(), versions.concat())
}

fn first_line(tool: &str) -> String {
    let said = Command::new(tool).arg("--version").output();
    let text = said.map(|output| String::from_utf8_lossy(&output.stdout).into_owned());
    let line = text
        .ok()
        .and_then(|text| text.lines().next().map(str::to_string));
    line.unwrap_or_else(|| format!("no {tool}"))
}

fn processor() -> String {
    let known = std::fs::read_to_string("/proc/cpuinfo").unwrap_or_default();
    let line = known.lines().find(|line| line.starts_with("model name"));
    let name = line.and_then(|line| line.split_once(": "));
    name.map_or("a processor that does not say its name", |(_, name)| name)
        .to_string()
}

fn ratios_table(results: &Results) -> String {
    let mut text = "## Ratios\n\n| ours to | mean | goal | worst | goal | worst cell |\n|---|---|---|---|---|---|\n".to_string();
    for ratio in results.ratios() {
        let (cell, worst) = ratio.worst();
        let _ = writeln!(
            text,
            "| {} | {:.3} | {} | {worst:.3} | {} | {} |",
            ratio.name,
            ratio.mean(|_| true),
            ratio.goal_mean,
            ratio.goal_worst,
            cell.name()
        );
    }
    let _ = writeln!(text, "\n{}\n\n{}", best_forms(results), print_time(results));
    text
}

/// Every ratio's mean by model and topology.
fn topologies_table(results: &Results) -> String {
    let names = Topology::ALL.map(Topology::name).join(" | ");
    let mut text = format!("## Means by model and topology\n\n| ours to | model | {names} | all |\n|---|---|---|---|---|---|---|\n");
    for ratio in results.ratios() {
        for model in MODELS {
            let mean =
                |topology| ratio.mean(|cell| cell.model == model && cell.topology == topology);
            let means = Topology::ALL
                .map(|topology| format!("{:.3}", mean(topology)))
                .join(" | ");
            let all = ratio.mean(|cell| cell.model == model);
            let _ = writeln!(text, "| {} | {model} | {means} | {all:.3} |", ratio.name);
        }
    }
    text
}

/// Every contender's time, with the ratio of our fill to it.
fn forms_table(results: &Results) -> String {
    let mut text =
        "## Milliseconds\n\nMeans by model, with our fill's time as a multiple of each.\n\n"
            .to_string();
    text += "| | model 0 | model 1 | model 2 |\n|---|---|---|---|\n";
    for name in results.names.iter().filter(|name| *name != PRINT) {
        let entry = |model| {
            let mean = results.mean_under(name, model);
            format!("{mean:.2} ({:.2})", results.mean_under(FILL, model) / mean)
        };
        let _ = writeln!(text, "| {name} | {} |", MODELS.map(entry).join(" | "));
    }
    text
}

fn files() -> String {
    "## Files\n\n\
     - `grid.csv`, `grid.svg`: each cell's medians and quartiles, and our fill beside the paper's loop, as in document 002's Figure 4.\n\
     - `growth.csv`, `growth.svg`: the fills with 5 to 15 relations.\n\
     - `postgres.csv`, where `bench/postgres` has been run: PostgreSQL's planning time beside ours.\n"
        .to_string()
}
