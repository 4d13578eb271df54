//! What is printed: how the texts were distributed, and a disagreement as a call that can be repeated by hand.

use crate::check::{Answered, Lending};
use crate::texts::Case;
use std::fmt;
use std::path::{Path, PathBuf};

#[derive(Default)]
pub struct Counts {
    pub texts: u64,
    pub good: u64,
    pub damaged: u64,
    pub edges: u64,
    even: u64,
    good_even: u64,
    good_uneven: u64,
    even_with_touches: u64,
    even_with_waits: u64,
    even_out_of_turns: u64,
    touches: usize,
    uneven: u64,
    no_text: u64,
    few: u64,
}

impl Counts {
    pub fn count(&mut self, answered: Answered, is_good: bool) {
        self.texts += 1;
        self.good_even += u64::from(is_good && matches!(answered, Answered::Even(..)));
        self.good_uneven += u64::from(is_good && matches!(answered, Answered::Uneven));
        match answered {
            Answered::Even(traffic, out_of_turns) => {
                self.even += 1;
                self.even_with_touches += u64::from(traffic.touches > 0);
                self.even_with_waits += u64::from(traffic.touches > 0 && traffic.waits > 0);
                self.even_out_of_turns += u64::from(out_of_turns);
                self.touches += traffic.touches;
            }
            Answered::Uneven => self.uneven += 1,
            Answered::NoText => self.no_text += 1,
            Answered::Few => self.few += 1,
        }
    }
}

impl fmt::Display for Counts {
    fn fmt(&self, out: &mut fmt::Formatter) -> fmt::Result {
        writeln!(out, "made: {} good, {} damaged, {} at the limits", self.good, self.damaged, self.edges)?;
        writeln!(out, "of the good ones {} are even, {} uneven, the others few", self.good_even, self.good_uneven)?;
        writeln!(
            out,
            "of all even ones {} touch the memory ({} touches in the mean), {} of them wait, and {} run out of turns",
            self.even_with_touches,
            self.touches as u64 / self.even_with_touches.max(1),
            self.even_with_waits,
            self.even_out_of_turns
        )?;
        write!(
            out,
            "{} texts: {} even, {} uneven, {} no text, {} few: all agree",
            self.texts, self.even, self.uneven, self.no_text, self.few
        )
    }
}

pub fn disagreement(case: &Case, lending: &Lending, problem: &str) -> String {
    let Case { rows, threads, turns, memory } = case;
    let Lending { work_words, state_bytes, clash_words } = lending;
    let need = call::work_words(rows.len(), memory.len(), *threads);
    let rows = if rows.len() <= 1000 { format!("{rows:?}") } else { format!("{} words, in the file", rows.len()) };
    let call = call_by_hand(case).unwrap_or_else(|error| format!("(its files could not be written: {error})"));
    format!(
        "disagreement: {problem}\n\
         rows: {rows}\nthreads: {threads}\nturns: {turns}\nmemory: {memory:?}\n\
         lent: {work_words} words of work (needs {need}), {state_bytes} state bytes, {clash_words} clash words\n{call}"
    )
}

/// Writes the rows and the memory to files, and gives the command that runs them.
fn call_by_hand(case: &Case) -> std::io::Result<String> {
    let folder = std::env::temp_dir().join(format!("vinzurkog-compare-{}", std::process::id()));
    std::fs::create_dir_all(&folder)?;
    let rows = words_to(&folder, "text.rows", &case.rows)?;
    let memory = words_to(&folder, "memory.words", &case.memory)?;
    let memory = if case.memory.is_empty() { String::new() } else { format!("--memory {} ", memory.display()) };
    Ok(format!("./kernel verdict --threads {} --turns {} {memory}{}", case.threads, case.turns, rows.display()))
}

fn words_to(folder: &Path, name: &str, words: &[u32]) -> std::io::Result<PathBuf> {
    let path = folder.join(name);
    let lines: String = words.iter().map(|word| format!("{word}\n")).collect();
    std::fs::write(&path, lines)?;
    Ok(path)
}
