//! Threads and the memory that they share: one step of a thread, the step in which all that wait go on, and which
//! threads clash.

use crate::text::{Expression, Operation, Statement, Text};
use std::collections::BTreeSet;

#[derive(Clone, Copy, PartialEq, Eq, PartialOrd, Ord)]
enum How {
    Reading,
    Writing,
    Adding,
}

const WAYS: [How; 3] = [How::Reading, How::Writing, How::Adding];

#[derive(Clone, Copy, PartialEq, Eq)]
enum State {
    Going,
    Waiting,
    Ended,
    OutOfTurns,
}

/// Two threads, the lesser first, and the place at which they clash.
#[derive(Clone, Copy, PartialEq, Eq, Debug)]
pub struct Clash {
    pub first: usize,
    pub second: usize,
    pub place: usize,
}

struct Thread<'t> {
    me: u32,
    variables: Vec<u32>,
    /// What the thread still has to do; the first of it stands last.
    list: Vec<&'t Statement>,
    turns: u32,
    state: State,
    /// Since all last went on.
    touched: BTreeSet<(usize, How)>,
}

pub struct Machine<'t> {
    threads: Vec<Thread<'t>>,
    memory: Vec<u32>,
}

impl<'t> Thread<'t> {
    fn value(&self, expression: &Expression, all: u32) -> u32 {
        match expression {
            Expression::Number(number) => *number,
            Expression::Variable(variable) => self.variables[*variable],
            Expression::Me => self.me,
            Expression::All => all,
            Expression::Operation(operation, first, second) => {
                operate(operation, self.value(first, all), self.value(second, all))
            }
        }
    }

    fn touched(&self, place: usize, how: How) -> bool {
        self.touched.contains(&(place, how))
    }

    /// A loop whose test is not 0 takes a turn; without one the thread stops, with the loop still to do.
    fn go_round(&mut self, whole: &'t Statement, body: &'t Statement) {
        self.list.push(whole);
        match self.turns.checked_sub(1) {
            None => self.state = State::OutOfTurns,
            Some(turns) => {
                self.turns = turns;
                self.list.push(body);
            }
        }
    }

    fn has_touched(&self, place: usize) -> bool {
        WAYS.into_iter().any(|how| self.touched(place, how))
    }

    fn touched_only(&self, place: usize, how: How) -> bool {
        WAYS.into_iter().all(|other| self.touched(place, other) == (other == how))
    }
}

fn operate(operation: &Operation, first: u32, second: u32) -> u32 {
    match operation {
        Operation::Add => first.wrapping_add(second),
        Operation::Sub => first.wrapping_sub(second),
        Operation::Mul => first.wrapping_mul(second),
        Operation::Div => first.checked_div(second).unwrap_or(0),
        Operation::Rem => first.checked_rem(second).unwrap_or(first),
        Operation::Less => u32::from(first < second),
        Operation::Same => u32::from(first == second),
    }
}

/// The places that both have touched. One that the first has touched in several ways comes several times.
fn common_places<'a>(one: &'a Thread, other: &'a Thread) -> impl Iterator<Item = usize> + 'a {
    one.touched.iter().map(|&(place, _)| place).filter(|&place| other.has_touched(place))
}

fn go_together(one: &Thread, other: &Thread, place: usize) -> bool {
    let both_only = |how| one.touched_only(place, how) && other.touched_only(place, how);
    both_only(How::Reading) || both_only(How::Adding)
}

impl<'t> Machine<'t> {
    pub fn new(text: &'t Text, threads: u32, turns: u32, memory: &[u32]) -> Self {
        let thread = |me| Thread {
            me,
            variables: vec![0; text.variables],
            list: vec![&text.statement],
            turns,
            state: State::Going,
            touched: BTreeSet::new(),
        };
        Machine { threads: (0..threads).map(thread).collect(), memory: memory.to_vec() }
    }

    pub fn memory(&self) -> &[u32] {
        &self.memory
    }

    /// Of an order that has come to its end: 2 for a thread that ended, 3 for one that is out of turns.
    pub fn states(&self) -> Vec<u8> {
        let written = |thread: &Thread| match thread.state {
            State::Ended => 2,
            State::OutOfTurns => 3,
            State::Going | State::Waiting => unreachable!("the order has not come to its end"),
        };
        self.threads.iter().map(written).collect()
    }

    pub fn can_step(&self, thread: usize) -> bool {
        self.threads[thread].state == State::Going
    }

    /// The threads that can take a step.
    pub fn going(&self) -> Vec<usize> {
        (0..self.threads.len()).filter(|&thread| self.can_step(thread)).collect()
    }

    pub fn some_wait(&self) -> bool {
        self.threads.iter().any(|thread| thread.state == State::Waiting)
    }

    /// How many touches are kept in mind at the moment.
    pub fn touches(&self) -> usize {
        self.threads.iter().map(|thread| thread.touched.len()).sum()
    }

    /// All that wait go on, and every thread forgets what it touched.
    pub fn go_on(&mut self) {
        for thread in &mut self.threads {
            thread.touched.clear();
            if thread.state == State::Waiting {
                thread.state = State::Going;
            }
        }
    }

    /// All pairs of threads that clash now, with each place at which they do.
    pub fn clashes(&self) -> Vec<Clash> {
        let mut clashes = Vec::new();
        for second in 0..self.threads.len() {
            for first in 0..second {
                let (one, other) = (&self.threads[first], &self.threads[second]);
                let clashing = common_places(one, other).filter(|&place| !go_together(one, other, place));
                clashes.extend(clashing.map(|place| Clash { first, second, place }));
            }
        }
        clashes.dedup();
        clashes
    }

    /// One step of a thread that can take one.
    pub fn step(&mut self, number: usize) {
        let all = self.threads.len() as u32;
        let thread = &mut self.threads[number];
        let Some(statement) = thread.list.pop() else {
            thread.state = State::Ended;
            return;
        };
        match statement {
            Statement::Nothing => {}
            Statement::Two(first, second) => thread.list.extend([&**second, &**first]),
            Statement::Set(variable, value) => thread.variables[*variable] = thread.value(value, all),
            Statement::Read(variable, place) => {
                let word = self.touch(number, place, How::Reading, |word| word);
                self.threads[number].variables[*variable] = word;
            }
            Statement::Write { place, value } => {
                let value = thread.value(value, all);
                self.touch(number, place, How::Writing, |_| value);
            }
            Statement::Add { place, value } => {
                let value = thread.value(value, all);
                self.touch(number, place, How::Adding, |word| word.wrapping_add(value));
            }
            Statement::If(test, yes, no) => {
                let chosen = if thread.value(test, all) != 0 { yes } else { no };
                thread.list.push(chosen);
            }
            Statement::While(test, _) if thread.value(test, all) == 0 => {}
            Statement::While(_, body) => thread.go_round(statement, body),
            Statement::Wait => thread.state = State::Waiting,
        }
    }

    /// Keeps the touch in mind, changes the word at the place, and gives the word that stood there. On a memory of no
    /// words every place is 0, with a word that stays 0.
    fn touch(&mut self, number: usize, place: &Expression, how: How, change: impl FnOnce(u32) -> u32) -> u32 {
        let all = self.threads.len() as u32;
        let named = self.threads[number].value(place, all) as usize;
        let place = named.checked_rem(self.memory.len()).unwrap_or(0);
        self.threads[number].touched.insert((place, how));
        match self.memory.get_mut(place) {
            None => 0,
            Some(word) => {
                let stood = *word;
                *word = change(stood);
                stood
            }
        }
    }
}
