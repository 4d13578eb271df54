//! The design of the proved call, written plainly in Rust: rows are walked where they stand, each thread has a stack of
//! positions, and two words are kept in mind for each place. It is what the proved call is timed against.
//!
//! It has what a careful programmer would write without a prover: bounds are checked as Rust checks them, nothing
//! is `unsafe`, and buffers are vectors of its own, made anew at each call.

mod codes;
mod ends;
mod ledger;
mod walk;

use ledger::Ledger;
use walk::{Stop, Thread, Walk};

/// Two threads, the lesser first, and the place at which they clash.
#[derive(Clone, Copy, PartialEq, Eq, Debug)]
pub struct Clash {
    pub first: u32,
    pub second: u32,
    pub place: u32,
}

#[derive(Clone, Copy, PartialEq, Eq, Debug)]
pub enum Answer {
    Even,
    Uneven(Clash),
    NoText,
}

/// Runs the rows in the order in which threads go one after the other. `states` has a byte for each thread. Only an
/// even text changes the memory and the states.
pub fn run(rows: &[u32], threads: u32, turns: u32, memory: &mut [u32], states: &mut [u8]) -> Answer {
    let Some(ends) = ends::ends_of_statements(rows) else {
        return Answer::NoText;
    };
    let mut walk = Walk { rows, ends: &ends, all: threads, memory: memory.to_vec(), ledger: Ledger::new(memory.len()) };
    let mut threads: Vec<Thread> = (0..threads).map(|me| Thread::new(me, rows[0], turns)).collect();
    match all_stretches(&mut walk, &mut threads) {
        Err(clash) => Answer::Uneven(clash),
        Ok(()) => {
            memory.copy_from_slice(&walk.memory);
            for (state, thread) in states.iter_mut().zip(&threads) {
                *state = if thread.stop == Stop::OutOfTurns { 3 } else { 2 };
            }
            Answer::Even
        }
    }
}

/// A stretch is what lies between two waits of all.
fn all_stretches(walk: &mut Walk, threads: &mut [Thread]) -> Result<(), Clash> {
    loop {
        let mut some_wait = false;
        for thread in threads.iter_mut().filter(|thread| thread.stop == Stop::AtWait) {
            thread.stop = walk.go_until_stopped(thread)?;
            some_wait |= thread.stop == Stop::AtWait;
        }
        if !some_wait {
            return Ok(());
        }
        walk.ledger.forget();
    }
}
