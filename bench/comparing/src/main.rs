//! Runs the proved call and the second implementation on many texts, and says whether they agree.

mod check;
mod damage;
mod draw;
mod report;
mod texts;

use check::{check, Answered, Lending};
use draw::Draw;
use report::Counts;
use std::process::ExitCode;
use texts::Case;

const USAGE: &str = "compare [--texts N] [--seed N]  compares the proved call with the second implementation";

fn main() -> ExitCode {
    let (texts, seed) = match options() {
        Ok(options) => options,
        Err(problem) => {
            eprintln!("compare: {problem}\n{USAGE}");
            return ExitCode::from(2);
        }
    };
    match compare_all(texts, seed) {
        Ok(counts) => {
            println!("{counts}");
            ExitCode::SUCCESS
        }
        Err(disagreement) => {
            println!("{disagreement}\nrepeat with: bench/compare --texts {texts} --seed {seed}");
            ExitCode::FAILURE
        }
    }
}

fn options() -> Result<(u64, u64), String> {
    let (mut texts, mut seed) = (20_000, 1);
    let mut words = std::env::args().skip(1);
    while let Some(option) = words.next() {
        let value = words.next().and_then(|word| word.parse().ok());
        let value = value.ok_or_else(|| format!("'{option}' wants a number"))?;
        match option.as_str() {
            "--texts" => texts = value,
            "--seed" => seed = value,
            _ => return Err(format!("there is no option '{option}'")),
        }
    }
    Ok((texts, seed))
}

fn compare_all(texts: u64, seed: u64) -> Result<Counts, String> {
    let mut draw = Draw::new(seed);
    let mut counts = Counts::default();
    let mut work = Vec::new();
    for case in damage::edges() {
        for lending in lendings_at_the_edge(&case) {
            counts.edges += 1;
            let answered = compare_one(&case, &lending, &mut work, &mut draw)?;
            counts.count(answered, false);
        }
    }
    while counts.texts < texts {
        let mut case = texts::good_case(&mut draw);
        let is_good = draw.percent(75);
        if is_good {
            counts.good += 1;
        } else {
            counts.damaged += 1;
            damage::damage(&mut case.rows, &mut draw);
        }
        let lending = drawn_lending(&case, &mut draw);
        let answered = compare_one(&case, &lending, &mut work, &mut draw)?;
        counts.count(answered, is_good);
    }
    Ok(counts)
}

fn compare_one(case: &Case, lending: &Lending, work: &mut Vec<u32>, draw: &mut Draw) -> Result<Answered, String> {
    check(case, lending, work, draw).map_err(|problem| report::disagreement(case, lending, &problem))
}

/// Exactly what is needed, one word of work less, and one state byte less.
fn lendings_at_the_edge(case: &Case) -> [Lending; 3] {
    let need = call::work_words(case.rows.len(), case.memory.len(), case.threads);
    let threads = case.threads as usize;
    [(need, threads), (need - 1, threads), (need, threads - 1)].map(|(work_words, state_bytes)| Lending {
        work_words,
        state_bytes,
        clash_words: 3,
    })
}

/// Most calls are lent what they need, exactly or with something to spare; some are lent one word or one byte less.
fn drawn_lending(case: &Case, draw: &mut Draw) -> Lending {
    let need = call::work_words(case.rows.len(), case.memory.len(), case.threads);
    let threads = case.threads as usize;
    let (work_words, state_bytes) = match draw.below(20) {
        0 => (need - 1, threads),
        1 => (need, threads.saturating_sub(1)),
        2 => (draw.index(need), draw.index(threads + 1)),
        3..=9 => (need, threads),
        _ => (need + draw.index(64), threads + draw.index(9)),
    };
    Lending { work_words, state_bytes, clash_words: draw.pick(&[0, 1, 2, 3, 3, 3, 3, 4, 5]) }
}
