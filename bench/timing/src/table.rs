//! The tables of what was measured, in Markdown that can be read as it stands.

use crate::faults::{Found, Tally};
use crate::growth::Growth;
use crate::ratios::{times_as_long, Measured, ToolTimes};
use crate::ways::Tool;
use std::fmt::Write;

pub fn ratios(measured: &[Measured], tools: &[Tool]) -> String {
    let names: Vec<_> = tools.iter().map(|tool| tool.name()).collect();
    let mut table = head(&[&["kernel", "proved"], names.as_slice()].concat());
    for kernel in measured {
        let mut cells = vec![kernel.name.to_string(), times_as_long(kernel.proved_ratio())];
        cells.extend(kernel.tools.iter().map(|tool| times_as_long(tool.ratio())));
        table += &line(&cells);
    }
    table
}

pub fn seconds(measured: &[Measured], tools: &[Tool]) -> String {
    let names: Vec<_> = tools.iter().map(|tool| tool.name()).collect();
    let mut table = head(&[&["kernel", "proved", "plain"], names.as_slice()].concat());
    for kernel in measured {
        let mut cells = vec![kernel.name.to_string()];
        cells.extend(
            [&kernel.proved, &kernel.plain]
                .map(|times| format!("{:.3} ({:.3} to {:.3})", times.median(), times.least(), times.most())),
        );
        cells.extend(kernel.tools.iter().map(tool_seconds));
        table += &line(&cells);
    }
    table
}

fn tool_seconds(tool: &ToolTimes) -> String {
    let seconds = format!("{:.3}", tool.times.median());
    match tool.part {
        1 => seconds,
        part => format!("{seconds} for 1/{part} of the rounds, plain {:.4}", tool.plain.median()),
    }
}

pub fn growth(growth: &[Growth]) -> String {
    let mut lines = String::new();
    for Growth { what, allowed, proved, plain } in growth {
        let verdict = if proved <= allowed { "as it should" } else { "more than it should" };
        let _ = writeln!(
            lines,
            "- waits with the {what} doubled: {proved:.2} times as long, {verdict} (at most {allowed}); plain {plain:.2}"
        );
    }
    lines
}

pub fn faults(found: &[Found], tools: &[Tool]) -> String {
    let names: Vec<_> = tools.iter().map(|tool| tool.name()).collect();
    let mut table = head(&[&["fault", "proved", "the clash it tells each time"], names.as_slice()].concat());
    for fault in found {
        let [first, second, place] = fault.clash;
        let clash = format!("threads {first} and {second}, place {place}");
        let mut cells = vec![fault.what.to_string(), tally(&fault.proved), clash];
        cells.extend(fault.tools.iter().map(tally));
        table += &line(&cells);
    }
    table
}

fn tally(tally: &Tally) -> String {
    match tally.mended {
        0 => tally.faulty.to_string(),
        mended => format!("{} (and {mended} of the mended one)", tally.faulty),
    }
}

fn head(names: &[&str]) -> String {
    let rule: String = names.iter().map(|_| "|---").collect();
    format!("| {} |\n{rule}|\n", names.join(" | "))
}

fn line(cells: &[String]) -> String {
    format!("| {} |\n", cells.join(" | "))
}
