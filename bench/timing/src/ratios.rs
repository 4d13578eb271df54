//! The five kernels, run in every way in turn, and how their times compare.

use crate::kernels::{self, Kernel, Size};
use crate::times::Times;
use crate::ways::{Calls, Program, Run, Tool};
use std::path::Path;

/// No call may take more than so many bytes of buffers.
const BUDGET: usize = 4 << 20;

/// A kernel that is timed, and at which part of its rounds each tool runs it: helgrind, above all, takes too long.
pub struct Timed {
    pub name: &'static str,
    text: fn(Size) -> Kernel,
    size: Size,
    parts: [u32; 3],
}

pub fn timed_kernels(quick: bool) -> Vec<Timed> {
    let timed = |name, text, threads, rounds: u32, words, parts| {
        let rounds = if quick { (rounds / 10).max(1) } else { rounds };
        Timed { name, text, size: Size { threads, rounds, words }, parts }
    };
    vec![
        timed("histogram", kernels::histogram as fn(Size) -> Kernel, 64, 80, 131_072, [1, 1, 40]),
        timed("stencil", kernels::stencil, 64, 900, 4_096, [1, 1, 30]),
        timed("tree", kernels::tree, 64, 200, 32_768, [1, 1, 50]),
        timed("compute", kernels::compute, 64, 1_200, 64, [1, 1, 40]),
        timed("waits", kernels::waits, 64, 100_000, 75_000, [50, 50, 1_000]),
    ]
}

/// One kernel's times: of the proved call, of the plain design, and of each tool beside the plain design at the same size.
pub struct Measured {
    pub name: &'static str,
    pub proved: Times,
    pub plain: Times,
    pub tools: Vec<ToolTimes>,
}

pub struct ToolTimes {
    pub tool: Tool,
    pub part: u32,
    pub times: Times,
    pub plain: Times,
}

impl Measured {
    pub fn proved_ratio(&self) -> f64 {
        self.proved.median() / self.plain.median()
    }
}

impl ToolTimes {
    pub fn ratio(&self) -> f64 {
        self.times.median() / self.plain.median()
    }
}

/// Runs a kernel in every way, one way after the other, and that so often; all must leave the same memory.
pub fn measure(timed: &Timed, alternations: u32, tools: &[Tool], programs: &Path) -> Result<Measured, String> {
    let mut calls = Calls::new((timed.text)(timed.size));
    if calls.kernel.buffer_bytes() > BUDGET {
        return Err(format!("{} takes {} bytes of buffers", timed.name, calls.kernel.buffer_bytes()));
    }
    let program = Program { folder: programs.to_path_buf(), name: timed.name };
    let mut beside: Vec<Beside> = tools.iter().map(|&tool| Beside::new(timed, tool)).collect();
    let (mut proved, mut plain) = (Times::default(), Times::default());
    for _ in 0..alternations {
        let (one, other) = (calls.proved()?, calls.plain()?);
        same_memory(timed.name, &one, &other)?;
        proved.push(one.seconds);
        plain.push(other.seconds);
        for tool in &mut beside {
            tool.alternate(&program)?;
        }
    }
    let tools = beside.into_iter().map(|tool| tool.measured).collect();
    Ok(Measured { name: timed.name, proved, plain, tools })
}

/// A tool's runs, and the plain design's on the same size beside them.
struct Beside {
    size: Size,
    calls: Calls,
    measured: ToolTimes,
}

impl Beside {
    fn new(timed: &Timed, tool: Tool) -> Self {
        let part = timed.parts[tool as usize];
        let size = Size { rounds: (timed.size.rounds / part).max(1), ..timed.size };
        let measured = ToolTimes { tool, part, times: Times::default(), plain: Times::default() };
        Beside { size, calls: Calls::new((timed.text)(size)), measured }
    }

    fn alternate(&mut self, program: &Program) -> Result<(), String> {
        let (one, other) = (program.run(self.measured.tool, self.size)?, self.calls.plain()?);
        same_memory(program.name, &one, &other)?;
        self.measured.times.push(one.seconds);
        self.measured.plain.push(other.seconds);
        Ok(())
    }
}

fn same_memory(name: &str, one: &Run, other: &Run) -> Result<(), String> {
    if one.checksum == other.checksum {
        Ok(())
    } else {
        Err(format!("{name}: the plain design leaves another memory"))
    }
}

/// A ratio as it is shown: three digits are more than the clock is good for.
pub fn times_as_long(ratio: f64) -> String {
    match ratio {
        ratio if ratio < 0.1 => format!("{ratio:.3}"),
        ratio if ratio < 10.0 => format!("{ratio:.2}"),
        ratio => format!("{ratio:.0}"),
    }
}
