//! How the time of the kernel with many waits grows with the memory, the threads and the rounds.

use crate::kernels::{waits, Size};
use crate::times::Times;
use crate::ways::Calls;

pub struct Growth {
    pub what: &'static str,
    /// What the time may grow by, with a tenth for chance.
    pub allowed: f64,
    pub proved: f64,
    pub plain: f64,
}

/// Times the kernel, and the kernel with one thing doubled, in turn.
pub fn measure(alternations: u32, quick: bool) -> Result<Vec<Growth>, String> {
    let size = Size { threads: 64, rounds: if quick { 5_000 } else { 60_000 }, words: 75_000 };
    let doubled = [
        ("memory", 1.1, Size { words: 2 * size.words, ..size }),
        ("threads", 2.2, Size { threads: 2 * size.threads, ..size }),
        ("rounds", 2.2, Size { rounds: 2 * size.rounds, ..size }),
    ];
    let mut sizes = vec![size];
    sizes.extend(doubled.map(|(_, _, size)| size));
    let mut calls: Vec<_> = sizes.iter().map(|&size| Calls::new(waits(size))).collect();
    let mut times = vec![(Times::default(), Times::default()); calls.len()];
    for _ in 0..alternations {
        for (calls, (proved, plain)) in calls.iter_mut().zip(&mut times) {
            proved.push(calls.proved()?.seconds);
            plain.push(calls.plain()?.seconds);
        }
    }
    let (single_proved, single_plain) = (times[0].0.median(), times[0].1.median());
    let growth = |((what, allowed, _), (proved, plain)): ((&'static str, f64, Size), &(Times, Times))| Growth {
        what,
        allowed,
        proved: proved.median() / single_proved,
        plain: plain.median() / single_plain,
    };
    Ok(doubled.into_iter().zip(&times[1..]).map(growth).collect())
}
