//! Whole orders of steps: the one in which threads go one after the other, and orders that are drawn.

use crate::machine::{Clash, Machine};
use crate::text::Text;

/// What an order leaves at its end.
#[derive(PartialEq, Eq, Debug)]
pub struct End {
    pub memory: Vec<u32>,
    pub states: Vec<u8>,
}

pub enum Outcome {
    Even {
        end: End,
        traffic: Traffic,
    },
    /// All the clashes there are behind the first step that made one.
    Uneven(Vec<Clash>),
}

/// How much went on in an order; a comparison is worth little where nothing does.
#[derive(Default, Clone, Copy)]
pub struct Traffic {
    /// Touches of places, each counted once for a thread, a way of touching, and a stretch between waits.
    pub touches: usize,
    /// How often all that wait went on.
    pub waits: usize,
}

pub struct DrawnOrder {
    pub clashed: bool,
    pub end: End,
}

/// Thread 0 goes until it stops, then thread 1, and so on; then all that wait go on. Ends at the first clash.
pub fn one_after_the_other(text: &Text, threads: u32, turns: u32, memory: &[u32]) -> Outcome {
    let mut machine = Machine::new(text, threads, turns, memory);
    let mut traffic = Traffic::default();
    loop {
        for thread in 0..threads as usize {
            let clashes = go_until_stopped(&mut machine, thread);
            if !clashes.is_empty() {
                return Outcome::Uneven(clashes);
            }
        }
        traffic.touches += machine.touches();
        if !machine.some_wait() {
            return Outcome::Even { end: end_of(&machine), traffic };
        }
        traffic.waits += 1;
        machine.go_on();
    }
}

fn go_until_stopped(machine: &mut Machine, thread: usize) -> Vec<Clash> {
    while machine.can_step(thread) {
        if step_clashes(machine, thread) {
            return machine.clashes();
        }
    }
    Vec::new()
}

/// Takes a step, and says whether threads clash behind it. Where nothing new is kept in mind, they clash as before.
fn step_clashes(machine: &mut Machine, thread: usize) -> bool {
    let touches = machine.touches();
    machine.step(thread);
    machine.touches() != touches && !machine.clashes().is_empty()
}

/// An order to its end, through clashes and all: `draw(n)` gives a number below n, which says who goes next.
pub fn drawn(
    text: &Text,
    threads: u32,
    turns: u32,
    memory: &[u32],
    mut draw: impl FnMut(usize) -> usize,
) -> DrawnOrder {
    let mut machine = Machine::new(text, threads, turns, memory);
    let mut clashed = false;
    loop {
        let going = machine.going();
        if !going.is_empty() {
            let thread = going[draw(going.len())];
            clashed |= step_clashes(&mut machine, thread);
        } else if machine.some_wait() {
            machine.go_on();
        } else {
            return DrawnOrder { clashed, end: end_of(&machine) };
        }
    }
}

fn end_of(machine: &Machine) -> End {
    End { memory: machine.memory().to_vec(), states: machine.states() }
}
