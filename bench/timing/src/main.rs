//! Times the proved call against the plain design and against programs in C, and counts who tells which fault.

mod chart;
mod faults;
mod growth;
mod kernels;
mod machine;
mod ratios;
mod table;
mod times;
mod ways;

use std::path::{Path, PathBuf};
use std::process::ExitCode;
use ways::{Tool, TOOLS};

/// How much is measured.
struct Plan {
    quick: bool,
    alternations: u32,
    runs: u32,
    /// The folder of the programs in C, and the one that the tables and the chart are written to.
    programs: PathBuf,
    results: PathBuf,
}

fn main() -> ExitCode {
    let words: Vec<_> = std::env::args().skip(1).collect();
    let words: Vec<_> = words.iter().map(String::as_str).collect();
    let plan = match words[..] {
        [programs, results] => plan(programs, results, false),
        [programs, results, "--quick"] => plan(programs, results, true),
        [_, _, "--pair"] => return ended(measure_pair()),
        _ => {
            eprintln!("timing PROGRAMS RESULTS [--quick | --pair]  is what bench/speed calls");
            return ExitCode::from(2);
        }
    };
    ended(measure_all(&plan))
}

fn ended(outcome: Result<(), String>) -> ExitCode {
    match outcome {
        Ok(()) => ExitCode::SUCCESS,
        Err(problem) => {
            eprintln!("speed: {problem}");
            ExitCode::FAILURE
        }
    }
}

fn plan(programs: &str, results: &str, quick: bool) -> Plan {
    let (alternations, runs) = if quick { (3, 3) } else { (7, 20) };
    Plan { quick, alternations, runs, programs: programs.into(), results: results.into() }
}

/// The proved call and the plain design alone, which takes half a minute.
fn measure_pair() -> Result<(), String> {
    for timed in ratios::timed_kernels(false) {
        let measured = ratios::measure(&timed, 7, &[], Path::new(""))?;
        println!("{:<10} {:.2}", timed.name, measured.proved_ratio());
    }
    Ok(())
}

fn measure_all(plan: &Plan) -> Result<(), String> {
    let machine = machine::describe();
    let tools: Vec<Tool> = TOOLS.into_iter().filter(|tool| tool.is_there(&plan.programs)).collect();
    let watchers: Vec<Tool> = tools.iter().copied().filter(|&tool| tool != Tool::Nothing).collect();

    let mut measured = Vec::new();
    for timed in ratios::timed_kernels(plan.quick) {
        eprintln!("timing {}", timed.name);
        measured.push(ratios::measure(&timed, plan.alternations, &tools, &plan.programs)?);
    }
    eprintln!("timing waits, doubled");
    let growth = growth::measure(plan.alternations, plan.quick)?;
    eprintln!("running the faulty kernels");
    let found = faults::find_all(plan.runs, &watchers, &plan.programs)?;

    let tables = format!(
        "{machine}\n\nTime, as a multiple of the plain design's:\n\n{}\nSeconds, the median of {} alternations:\n\n{}\n{}\n\
         In how many of {} runs the fault was told:\n\n{}",
        table::ratios(&measured, &tools),
        plan.alternations,
        table::seconds(&measured, &tools),
        table::growth(&growth),
        plan.runs,
        table::faults(&found, &watchers),
    );
    print!("{tables}");
    write(&plan.results, "speed-table.md", &format!("# What `bench/speed` measured last\n\n{tables}"))?;
    write(&plan.results, "speed.svg", &chart::draw(&measured, &tools))
}

fn write(folder: &Path, name: &str, contents: &str) -> Result<(), String> {
    std::fs::write(folder.join(name), contents).map_err(|error| format!("{name}: {error}"))
}
