//! A thread's walk over the rows, from one wait to the next.

use crate::codes::*;
use crate::ledger::{How, Ledger};
use crate::Clash;

/// Why a thread takes no step. Before its first step a thread counts as one that waited.
#[derive(Clone, Copy, PartialEq, Eq)]
pub enum Stop {
    AtWait,
    Ended,
    OutOfTurns,
}

pub struct Thread {
    me: u32,
    variables: Vec<u32>,
    /// Positions of the statements that are still to do; the next one stands last.
    stack: Vec<u32>,
    turns: u32,
    pub stop: Stop,
}

impl Thread {
    pub fn new(me: u32, variables: u32, turns: u32) -> Self {
        Thread { me, variables: vec![0; variables as usize], stack: vec![1], turns, stop: Stop::AtWait }
    }
}

pub struct Walk<'r> {
    pub rows: &'r [u32],
    pub ends: &'r [u32],
    pub all: u32,
    pub memory: Vec<u32>,
    pub ledger: Ledger,
}

impl Walk<'_> {
    pub fn go_until_stopped(&mut self, thread: &mut Thread) -> Result<Stop, Clash> {
        while let Some(position) = thread.stack.pop() {
            let at = position as usize;
            match self.rows[at] {
                NOTHING => {}
                TWO => {
                    thread.stack.push(self.ends[at + 1]);
                    thread.stack.push(position + 1);
                }
                SET => {
                    let (value, _) = self.value(thread, at + 2);
                    thread.variables[self.rows[at + 1] as usize] = value;
                }
                READ => self.read(thread, at)?,
                WRITE => self.change(thread, at, How::Writing, |_, value| value)?,
                ADD => self.change(thread, at, How::Adding, u32::wrapping_add)?,
                IF => {
                    let (test, yes) = self.value(thread, at + 1);
                    thread.stack.push(if test != 0 { yes as u32 } else { self.ends[yes] });
                }
                WHILE => {
                    let (test, body) = self.value(thread, at + 1);
                    if test != 0 {
                        thread.stack.push(position);
                        if thread.turns == 0 {
                            return Ok(Stop::OutOfTurns);
                        }
                        thread.turns -= 1;
                        thread.stack.push(body as u32);
                    }
                }
                _ => return Ok(Stop::AtWait),
            }
        }
        Ok(Stop::Ended)
    }

    #[inline]
    fn read(&mut self, thread: &mut Thread, at: usize) -> Result<(), Clash> {
        let (named, _) = self.value(thread, at + 2);
        let place = self.place(named);
        self.ledger.note(thread.me, place, How::Reading)?;
        thread.variables[self.rows[at + 1] as usize] = self.memory.get(place).copied().unwrap_or(0);
        Ok(())
    }

    /// A write or an add: what the word becomes of the word that stands there and the value.
    #[inline]
    fn change(&mut self, thread: &Thread, at: usize, how: How, new: impl Fn(u32, u32) -> u32) -> Result<(), Clash> {
        let (named, behind) = self.value(thread, at + 1);
        let (value, _) = self.value(thread, behind);
        let place = self.place(named);
        self.ledger.note(thread.me, place, how)?;
        if let Some(word) = self.memory.get_mut(place) {
            *word = new(*word, value);
        }
        Ok(())
    }

    #[inline]
    fn place(&self, named: u32) -> usize {
        (named as usize).checked_rem(self.memory.len()).unwrap_or(0)
    }

    /// The value of the expression at a position, and the position behind it.
    fn value(&self, thread: &Thread, at: usize) -> (u32, usize) {
        match self.rows[at] {
            NUMBER => (self.rows[at + 1], at + 2),
            VARIABLE => (thread.variables[self.rows[at + 1] as usize], at + 2),
            ME => (thread.me, at + 1),
            ALL => (self.all, at + 1),
            _ => {
                let (first, behind) = self.value(thread, at + 2);
                let (second, end) = self.value(thread, behind);
                (operate(self.rows[at + 1], first, second), end)
            }
        }
    }
}

fn operate(operation: u32, first: u32, second: u32) -> u32 {
    match operation {
        0 => first.wrapping_add(second),
        1 => first.wrapping_sub(second),
        2 => first.wrapping_mul(second),
        3 => first.checked_div(second).unwrap_or(0),
        4 => first.checked_rem(second).unwrap_or(first),
        5 => u32::from(first < second),
        _ => u32::from(first == second),
    }
}
