//! Holds this implementation to the answers in examples/, which are worked out by hand.

use reference::{one_after_the_other, read, Outcome};
use std::path::{Path, PathBuf};

/// No example without `--turns` has a loop.
const TURNS_WHERE_NONE_ARE_SAID: u32 = 0;

#[test]
fn examples_have_the_answers_worked_out_by_hand() {
    let examples = top().join("examples");
    let mut calls = 0;
    for entry in std::fs::read_dir(examples).unwrap() {
        let path = entry.unwrap().path();
        if path.extension().is_some_and(|extension| extension == "answer") {
            calls += holds_to(&path);
        }
    }
    assert!(calls > 0);
}

fn top() -> PathBuf {
    Path::new(env!("CARGO_MANIFEST_DIR")).join("../..")
}

/// Makes each call that the file shows, and gives their number.
fn holds_to(answers: &Path) -> usize {
    let text = std::fs::read_to_string(answers).unwrap();
    let calls: Vec<_> = text.split("# ./kernel run ").skip(1).collect();
    for call in &calls {
        let (words, answer) = call.split_once('\n').unwrap();
        assert!(answer_of(words, answer), "{}: {words}", answers.display());
    }
    calls.len()
}

/// Whether the call comes to the answer that is written below it.
fn answer_of(words: &str, answer: &str) -> bool {
    let after = |option: &str| words.split(' ').skip_while(|&word| word != option).nth(1);
    let number = |option: &str, otherwise| after(option).map_or(otherwise, |word| word.parse().unwrap());
    let (threads, turns) = (number("--threads", 1), number("--turns", TURNS_WHERE_NONE_ARE_SAID));
    let memory = after("--memory").map_or(Vec::new(), words_of_file);
    let text = read(&words_of_file(words.split(' ').next_back().unwrap())).unwrap();

    let line = |name: &str| answer.lines().find_map(|line| line.strip_prefix(name));
    match one_after_the_other(&text, threads, turns, &memory) {
        Outcome::Even { end, .. } => {
            line("memory:") == Some(&listed(&end.memory)) && line("states:") == Some(&listed(&end.states))
        }
        Outcome::Uneven(clashes) => clashes.iter().any(|clash| {
            let told = format!(" threads {} and {} clash at place {}", clash.first, clash.second, clash.place);
            line("uneven:") == Some(&told)
        }),
    }
}

fn words_of_file(name: &str) -> Vec<u32> {
    let text = std::fs::read_to_string(top().join(name)).unwrap();
    let without_comments = text.lines().map(|line| line.split('#').next().unwrap());
    without_comments.flat_map(str::split_whitespace).map(|word| word.parse().unwrap()).collect()
}

fn listed(numbers: &[impl ToString]) -> String {
    numbers.iter().map(|number| format!(" {}", number.to_string())).collect()
}
