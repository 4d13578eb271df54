//! Faulty kernels, and in how many runs each tool tells the fault.

use crate::kernels::{self, Kernel, Size};
use crate::ways::{Calls, Program, Told, Tool};
use std::path::Path;

struct Fault {
    what: &'static str,
    /// The name of the program in C, which is faulty where it is told to be.
    name: &'static str,
    faulty: fn(Size) -> Kernel,
    mended: fn(Size) -> Kernel,
    size: Size,
}

fn faults() -> [Fault; 3] {
    let size = Size { threads: 8, rounds: 10, words: 1_024 };
    [
        Fault {
            what: "two writes: an object lies across two strips",
            name: "objects",
            faulty: kernels::objects_across,
            mended: kernels::objects,
            size,
        },
        Fault {
            what: "a read and a write: the stencil lacks its second wait",
            name: "stencil",
            faulty: kernels::stencil_without_second_wait,
            mended: kernels::stencil,
            size,
        },
        Fault {
            what: "an add and a read: bins are read too early",
            name: "peak",
            faulty: kernels::peak_without_wait,
            mended: kernels::peak,
            size,
        },
    ]
}

/// In how many runs of the faulty kernel, and of the mended one, a fault was told.
pub struct Found {
    pub what: &'static str,
    pub clash: [u64; 3],
    pub proved: Tally,
    pub tools: Vec<Tally>,
}

#[derive(Default)]
pub struct Tally {
    pub faulty: u32,
    pub mended: u32,
}

pub fn find_all(runs: u32, tools: &[Tool], programs: &Path) -> Result<Vec<Found>, String> {
    faults().iter().map(|fault| find(fault, runs, tools, programs)).collect()
}

fn find(fault: &Fault, runs: u32, tools: &[Tool], programs: &Path) -> Result<Found, String> {
    let (proved, clash) = tally_proved(fault, runs)?;
    let program = Program { folder: programs.to_path_buf(), name: fault.name };
    let tools = tools.iter().map(|&tool| tally_tool(fault, runs, tool, &program)).collect::<Result<_, _>>()?;
    Ok(Found { what: fault.what, clash, proved, tools })
}

/// The proved call has to tell the same clash at each run of the faulty text, and none of the mended one.
fn tally_proved(fault: &Fault, runs: u32) -> Result<(Tally, [u64; 3]), String> {
    let mut faulty = Calls::new((fault.faulty)(fault.size));
    let mut mended = Calls::new((fault.mended)(fault.size));
    let first = faulty.timed_call().1;
    let mut tally = Tally::default();
    for _ in 0..runs {
        let told = faulty.timed_call().1;
        tally.faulty += u32::from(told.answer == call::UNEVEN && told == first);
        tally.mended += u32::from(mended.timed_call().1.answer != call::EVEN);
    }
    if tally.faulty != runs || tally.mended != 0 {
        let Tally { faulty, mended } = tally;
        return Err(format!("{}: of {runs} runs the proved call told {faulty}, and {mended} mended ones", fault.what));
    }
    plain_agrees(fault, &mut faulty, &first)?;
    Ok((tally, first.clash))
}

fn plain_agrees(fault: &Fault, faulty: &mut Calls, told: &Told) -> Result<(), String> {
    match faulty.timed_plain().1 {
        plain::Answer::Uneven(_) => Ok(()),
        answer => Err(format!("{}: the plain design answers {answer:?}, the proved call {told:?}", fault.what)),
    }
}

fn tally_tool(fault: &Fault, runs: u32, tool: Tool, program: &Program) -> Result<Tally, String> {
    let mut tally = Tally::default();
    for _ in 0..runs {
        tally.faulty += u32::from(program.watch(tool, fault.size, true)?.0);
        tally.mended += u32::from(program.watch(tool, fault.size, false)?.0);
    }
    Ok(tally)
}
