//! The ways in which a kernel is run and timed: the proved call, the plain design, and programs in C.

use crate::kernels::{Kernel, Size};
use call::Lent;
use std::path::{Path, PathBuf};
use std::process::Command;
use std::time::Instant;

/// How a timed run went: its seconds, and what it left, in one number.
pub struct Run {
    pub seconds: f64,
    pub checksum: u64,
}

/// A kernel with everything that its calls are lent. Buffers are made once; between calls only the memory is put back, and
/// that is not timed.
pub struct Calls {
    pub kernel: Kernel,
    memory: Vec<u32>,
    states: Vec<u8>,
    work: Vec<u32>,
    clash: [u64; 3],
}

/// What the proved call answered: its number, and the words of a clash where it told one.
#[derive(PartialEq, Eq, Debug)]
pub struct Told {
    pub answer: u32,
    pub clash: [u64; 3],
}

impl Calls {
    pub fn new(kernel: Kernel) -> Self {
        let work_words = call::work_words(kernel.rows.len(), kernel.memory.len(), kernel.threads);
        Calls {
            memory: kernel.memory.clone(),
            states: vec![0; kernel.threads as usize],
            work: vec![0; work_words],
            clash: [0; 3],
            kernel,
        }
    }

    pub fn proved(&mut self) -> Result<Run, String> {
        let (seconds, told) = self.timed_call();
        match told.answer {
            call::EVEN => Ok(Run { seconds, checksum: checksum(&self.memory) }),
            answer => Err(format!("the proved call answers {answer} of a kernel that is even")),
        }
    }

    pub fn plain(&mut self) -> Result<Run, String> {
        let (seconds, answer) = self.timed_plain();
        match answer {
            plain::Answer::Even => Ok(Run { seconds, checksum: checksum(&self.memory) }),
            answer => Err(format!("the plain design answers {answer:?} of a kernel that is even")),
        }
    }

    pub fn timed_call(&mut self) -> (f64, Told) {
        self.memory.copy_from_slice(&self.kernel.memory);
        self.clash = [0; 3];
        let lent =
            Lent { memory: &mut self.memory, states: &mut self.states, work: &mut self.work, clash: &mut self.clash };
        let start = Instant::now();
        let answer = call::run(&self.kernel.rows, self.kernel.threads, self.kernel.turns, lent);
        (start.elapsed().as_secs_f64(), Told { answer, clash: self.clash })
    }

    pub fn timed_plain(&mut self) -> (f64, plain::Answer) {
        self.memory.copy_from_slice(&self.kernel.memory);
        let Kernel { rows, threads, turns, .. } = &self.kernel;
        let start = Instant::now();
        let answer = plain::run(rows, *threads, *turns, &mut self.memory, &mut self.states);
        (start.elapsed().as_secs_f64(), answer)
    }
}

/// The same as in bench/c/kernel.h.
fn checksum(memory: &[u32]) -> u64 {
    memory
        .iter()
        .fold(14_695_981_039_346_656_037, |sum: u64, &word| (sum ^ u64::from(word)).wrapping_mul(1_099_511_628_211))
}

/// What a program in C is run under.
#[derive(Clone, Copy, PartialEq, Eq)]
pub enum Tool {
    Nothing,
    ThreadSanitizer,
    Helgrind,
}

pub const TOOLS: [Tool; 3] = [Tool::Nothing, Tool::ThreadSanitizer, Tool::Helgrind];

/// The exit status by which each tool says that it told something.
const SANITIZER_STATUS: i32 = 66;
const HELGRIND_STATUS: i32 = 67;

impl Tool {
    pub fn name(self) -> &'static str {
        match self {
            Tool::Nothing => "C",
            Tool::ThreadSanitizer => "tsan",
            Tool::Helgrind => "helgrind",
        }
    }

    pub fn is_there(self, programs: &Path) -> bool {
        match self {
            Tool::Nothing => true,
            Tool::ThreadSanitizer => programs.join("histogram-tsan").exists(),
            Tool::Helgrind => Command::new("valgrind").arg("--version").output().is_ok(),
        }
    }

    fn command(self, programs: &Path, name: &str) -> Command {
        match self {
            Tool::Nothing => Command::new(programs.join(name)),
            Tool::ThreadSanitizer => {
                let mut command = Command::new(programs.join(format!("{name}-tsan")));
                command.env("TSAN_OPTIONS", format!("exitcode={SANITIZER_STATUS}"));
                command
            }
            Tool::Helgrind => {
                let mut command = Command::new("valgrind");
                command.args(["--tool=helgrind", "--quiet", &format!("--error-exitcode={HELGRIND_STATUS}")]);
                command.arg(programs.join(name));
                command
            }
        }
    }
}

/// A kernel's program in C, and the folder in which it was built.
pub struct Program {
    pub folder: PathBuf,
    pub name: &'static str,
}

impl Program {
    /// Times a run that the tool should have nothing to tell of.
    pub fn run(&self, tool: Tool, size: Size) -> Result<Run, String> {
        let (told, run) = self.watch(tool, size, false)?;
        if told {
            return Err(format!("{} tells a fault of {}, which has none", tool.name(), self.name));
        }
        Ok(run)
    }

    /// Whether the tool told of a fault.
    pub fn watch(&self, tool: Tool, size: Size, faulty: bool) -> Result<(bool, Run), String> {
        let problem = |what: String| format!("{} under {}: {what}", self.name, tool.name());
        let arguments = [size.threads, size.rounds, size.words, u32::from(faulty)].map(|number| number.to_string());
        let output = tool.command(&self.folder, self.name).args(arguments).output();
        let output = output.map_err(|error| problem(error.to_string()))?;
        let told = match output.status.code() {
            Some(0) => false,
            Some(SANITIZER_STATUS | HELGRIND_STATUS) => true,
            _ => return Err(problem(output.status.to_string())),
        };
        let printed = String::from_utf8_lossy(&output.stdout);
        let mut fields = printed.split_whitespace();
        let seconds = fields.next().and_then(|field| field.parse().ok());
        let checksum = fields.next().and_then(|field| field.parse().ok());
        match (seconds, checksum) {
            (Some(seconds), Some(checksum)) => Ok((told, Run { seconds, checksum })),
            _ => Err(problem(format!("it printed {printed:?}"))),
        }
    }
}
