//! The proved call, as the static library of crates/vinzurkog exports it, behind slices.

#[link(name = "vinzurkog", kind = "static")]
extern "C" {
    fn vinzurkog_run(
        kernel: *const u32,
        kernel_words: usize,
        threads: u32,
        turns: u32,
        memory: *mut u32,
        memory_words: usize,
        states: *mut u8,
        state_bytes: usize,
        work: *mut u32,
        work_words: usize,
        clash: *mut u64,
        clash_words: usize,
    ) -> u32;
}

pub const EVEN: u32 = 0;
pub const UNEVEN: u32 = 1;
pub const NO_TEXT: u32 = 2;
pub const FEW: u32 = 3;

/// What is lent to the call.
pub struct Lent<'l> {
    pub memory: &'l mut [u32],
    pub states: &'l mut [u8],
    pub work: &'l mut [u32],
    pub clash: &'l mut [u64],
}

pub fn run(rows: &[u32], threads: u32, turns: u32, lent: Lent) -> u32 {
    let Lent { memory, states, work, clash } = lent;
    // The call is lent five stretches of memory that don't overlap, each with its length, and only for its time.
    unsafe {
        vinzurkog_run(
            rows.as_ptr(),
            rows.len(),
            threads,
            turns,
            memory.as_mut_ptr(),
            memory.len(),
            states.as_mut_ptr(),
            states.len(),
            work.as_mut_ptr(),
            work.len(),
            clash.as_mut_ptr(),
            clash.len(),
        )
    }
}

/// How many words of work the call has to be lent.
pub fn work_words(row_words: usize, memory_words: usize, threads: u32) -> usize {
    4096 + 8 * row_words + 4 * memory_words + 1024 * threads as usize
}
