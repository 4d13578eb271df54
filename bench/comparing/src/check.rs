//! One comparison: what the proved call answers, held to the second implementation.

use crate::draw::Draw;
use crate::texts::Case;
use call::{Lent, EVEN, FEW, NO_TEXT, UNEVEN};
use reference::{End, Outcome, Traffic};

/// How much is lent to a call, besides the memory.
pub struct Lending {
    pub work_words: usize,
    pub state_bytes: usize,
    pub clash_words: usize,
}

/// What the second implementation says of a case.
pub enum Expected {
    NoText,
    Ran(Outcome),
}

/// The kinds of answers that are counted.
pub enum Answered {
    Even(Traffic, OutOfTurns),
    Uneven,
    NoText,
    Few,
}

pub type OutOfTurns = bool;

/// Words and bytes past what is lent, which nobody may change.
const GUARDS: usize = 8;

/// The buffers that are lent, with guards behind each, and as they were before the call.
struct Buffers<T> {
    now: Vec<T>,
    before: Vec<T>,
    lent: usize,
}

impl<T: Copy + PartialEq> Buffers<T> {
    fn new(mut contents: Vec<T>, mut guard: impl FnMut() -> T) -> Self {
        let lent = contents.len();
        contents.extend((0..GUARDS).map(|_| guard()));
        Buffers { now: contents.clone(), before: contents, lent }
    }

    fn lend(&mut self) -> &mut [T] {
        &mut self.now[..self.lent]
    }

    /// Whether everything from an index on is as it was.
    fn unchanged_from(&self, index: usize) -> bool {
        self.now[index..] == self.before[index..]
    }

    fn unchanged(&self) -> bool {
        self.unchanged_from(0)
    }
}

pub fn expect(case: &Case) -> Expected {
    match reference::read(&case.rows) {
        None => Expected::NoText,
        Some(text) => Expected::Ran(reference::one_after_the_other(&text, case.threads, case.turns, &case.memory)),
    }
}

/// Runs the proved call with what is lent. `work` keeps what earlier calls left there: the call may not mind.
pub fn check(case: &Case, lending: &Lending, work: &mut Vec<u32>, draw: &mut Draw) -> Result<Answered, String> {
    let expected = expect(case);
    check_drawn_order(case, &expected, draw)?;
    check_plain(case, &expected)?;
    check_call(case, lending, &expected, work, draw)
}

fn check_call(
    case: &Case,
    lending: &Lending,
    expected: &Expected,
    work: &mut Vec<u32>,
    draw: &mut Draw,
) -> Result<Answered, String> {
    let call = Call::make(case, lending, work, draw)?;
    let answer = expected_answer(expected, is_few(case, lending));
    hold(call.answer == answer, || format!("the call answers {}, and not {answer}", call.answer))?;
    hold(answer == UNEVEN || call.clash.unchanged(), || "clash words changed, though no clash is told".into())?;
    match (call.answer, expected) {
        (EVEN, Expected::Ran(Outcome::Even { end, traffic })) => {
            call.check_end(end)?;
            Ok(Answered::Even(*traffic, end.states.contains(&3)))
        }
        (UNEVEN, Expected::Ran(Outcome::Uneven(clashes))) => {
            call.check_unchanged()?;
            call.check_told_clash(clashes)?;
            Ok(Answered::Uneven)
        }
        (FEW, _) => {
            call.check_unchanged()?;
            Ok(Answered::Few)
        }
        _ => {
            call.check_unchanged()?;
            Ok(Answered::NoText)
        }
    }
}

/// Whether enough is lent is told first, whatever the rows are.
fn expected_answer(expected: &Expected, few: bool) -> u32 {
    match expected {
        _ if few => FEW,
        Expected::NoText => NO_TEXT,
        Expected::Ran(Outcome::Even { .. }) => EVEN,
        Expected::Ran(Outcome::Uneven(_)) => UNEVEN,
    }
}

/// A call that was made: its answer, and what it did to what it was lent.
struct Call {
    answer: u32,
    memory: Buffers<u32>,
    states: Buffers<u8>,
    clash: Buffers<u64>,
}

impl Call {
    fn make(case: &Case, lending: &Lending, work: &mut Vec<u32>, draw: &mut Draw) -> Result<Self, String> {
        let states = (0..lending.state_bytes).map(|_| draw.word() as u8).collect();
        let clash = (0..lending.clash_words).map(|_| draw.word().into()).collect();
        let mut memory = Buffers::new(case.memory.clone(), || draw.word());
        let mut states = Buffers::new(states, || draw.word() as u8);
        let mut clash = Buffers::new(clash, || draw.word().into());
        work.resize((lending.work_words + GUARDS).max(work.len()), 0xa5a5_a5a5);
        let (work, behind) = work.split_at_mut(lending.work_words);
        let guards = behind[..GUARDS].to_vec();

        let lent = Lent { memory: memory.lend(), states: states.lend(), work, clash: clash.lend() };
        let answer = call::run(&case.rows, case.threads, case.turns, lent);

        hold(behind[..GUARDS] == guards, || "words behind the lent work changed".into())?;
        hold(clash.unchanged_from(lending.clash_words.min(3)), || "clash words past the third changed".into())?;
        Ok(Call { answer, memory, states, clash })
    }

    fn check_end(&self, end: &End) -> Result<(), String> {
        let (words, threads) = (end.memory.len(), end.states.len());
        let (memory, states) = (&self.memory.now[..words], &self.states.now[..threads]);
        hold(*memory == end.memory, || format!("memory: {memory:?}, and not {:?}", end.memory))?;
        hold(*states == end.states, || format!("states: {states:?}, and not {:?}", end.states))?;
        hold(self.memory.unchanged_from(words), || "words behind the memory changed".into())?;
        hold(self.states.unchanged_from(threads), || "state bytes past the threads changed".into())
    }

    fn check_unchanged(&self) -> Result<(), String> {
        hold(self.memory.unchanged(), || "the memory changed".into())?;
        hold(self.states.unchanged(), || "the states changed".into())
    }

    fn check_told_clash(&self, clashes: &[reference::Clash]) -> Result<(), String> {
        if self.clash.lent < 3 {
            return hold(self.clash.unchanged(), || "clash words changed, though there are fewer than three".into());
        }
        check_clash(&self.clash.now, clashes)
    }
}

fn is_few(case: &Case, lending: &Lending) -> bool {
    lending.state_bytes < case.threads as usize
        || lending.work_words < call::work_words(case.rows.len(), case.memory.len(), case.threads)
}

/// A told clash must be one of those behind the first step that clashes in the order in which threads go one after the
/// other.
fn check_clash(told: &[u64], clashes: &[reference::Clash]) -> Result<(), String> {
    let is_told = |clash: &reference::Clash| {
        [clash.first, clash.second, clash.place].iter().zip(told).all(|(&number, &told)| number as u64 == told)
    };
    hold(clashes.iter().any(is_told), || format!("the call tells the clash {:?}, there are {clashes:?}", &told[..3]))
}

/// By the theory a drawn order clashes exactly if the text is uneven, and of an even text it leaves the same.
fn check_drawn_order(case: &Case, expected: &Expected, draw: &mut Draw) -> Result<(), String> {
    let (Expected::Ran(outcome), Some(text)) = (expected, reference::read(&case.rows)) else {
        return Ok(());
    };
    let order = reference::drawn(&text, case.threads, case.turns, &case.memory, |going| draw.index(going));
    match outcome {
        Outcome::Uneven(_) => hold(order.clashed, || "a drawn order of the reference has no clash".into()),
        Outcome::Even { end, .. } => hold(!order.clashed && order.end == *end, || {
            "a drawn order of the reference clashes, or leaves something else".into()
        }),
    }
}

/// The plain design, which the proved call is timed against, has to mean the same.
fn check_plain(case: &Case, expected: &Expected) -> Result<(), String> {
    let (mut memory, mut states) = (case.memory.clone(), vec![0; case.threads as usize]);
    let answer = plain::run(&case.rows, case.threads, case.turns, &mut memory, &mut states);
    let agrees = match (answer, expected) {
        (plain::Answer::NoText, Expected::NoText) => true,
        (plain::Answer::Even, Expected::Ran(Outcome::Even { end, .. })) => memory == end.memory && states == end.states,
        (plain::Answer::Uneven(told), Expected::Ran(Outcome::Uneven(clashes))) => {
            let told = [told.first, told.second, told.place].map(u64::from);
            check_clash(&told, clashes)?;
            memory == case.memory
        }
        _ => false,
    };
    hold(agrees, || format!("the plain design answers {answer:?}, memory {memory:?}, states {states:?}"))
}

fn hold(holds: bool, otherwise: impl FnOnce() -> String) -> Result<(), String> {
    if holds {
        Ok(())
    } else {
        Err(otherwise())
    }
}
