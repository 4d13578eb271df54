//! Damaged rows, and texts at the edge of what is a text.

use crate::draw::Draw;
use crate::texts::Case;
use spelling::*;

/// Changes, cuts, lengthens or replaces the rows. What comes out may be a text all the same.
pub fn damage(rows: &mut Vec<u32>, draw: &mut Draw) {
    let (at, other) = (draw.index(rows.len()), draw.index(rows.len()));
    let word = if draw.percent(80) { draw.below(10) } else { draw.word() };
    match draw.below(8) {
        0 | 1 => rows[at] = word,
        2 => rows.truncate(at),
        3 => rows.insert(at, word),
        4 => rows.push(word),
        5 => drop(rows.remove(at)),
        6 => rows.swap(at, other),
        _ => *rows = (0..draw.below(40)).map(|_| draw.below(9)).collect(),
    }
}

/// Texts just within each limit, and rows just past it.
pub fn edges() -> Vec<Case> {
    let mut edges: Vec<Vec<u32>> =
        vec![vec![], vec![0], vec![0, 0], vec![256, 0], vec![257, 0], vec![0, 8], vec![0, 9]];
    edges.push(rows(256, &set(255, variable(255))));
    edges.push(rows(256, &set(256, variable(255))));
    edges.push(rows(256, &set(255, variable(256))));
    for deep in [255, 256, 257] {
        edges.push(rows(1, &deep_by(deep, |rest| two(write(me(), all()), rest), wait())));
        edges.push(rows(1, &deep_by(deep, |rest| two(rest, add(me(), number(1))), nothing())));
        edges.push(rows(1, &deep_by(deep, |rest| while_do(me(), rest), nothing())));
        edges.push(rows(1, &deep_by(deep, |rest| if_else(me(), rest.clone(), nothing()), nothing())));
        edges.push(rows(1, &set(0, deep_expression(deep - 1, |rest| plus(number(1), rest)))));
        edges.push(rows(1, &write(me(), deep_expression(deep - 1, |rest| plus(rest, me())))));
    }
    // A tree of n statements nothing has 2 n - 1 words; a set of a number in place of one has three more.
    for nothings in [32_767, 32_768, 32_769] {
        edges.push(rows(1, &tree_of(nothings, nothing())));
        edges.push(rows(1, &tree_of(nothings - 1, set(0, number(7)))));
    }
    let case = |rows| Case { rows, threads: 3, turns: 2, memory: vec![5, 6, 7, 8] };
    edges.into_iter().map(case).collect()
}

/// A statement that is so deep, by putting the innermost, which is 1 deep, into parts.
fn deep_by(deep: usize, part: impl Fn(Statement) -> Statement, innermost: Statement) -> Statement {
    (1..deep).fold(innermost, |statement, _| part(statement))
}

fn deep_expression(deep: usize, part: impl Fn(Expression) -> Expression) -> Expression {
    (1..deep).fold(me(), |expression, _| part(expression))
}

/// So many statements nothing, and a last one, in twos that are balanced, so that the tree stays flat.
fn tree_of(nothings: usize, last: Statement) -> Statement {
    if nothings <= 1 {
        return last;
    }
    two(tree_of(nothings / 2, nothing()), tree_of(nothings - nothings / 2, last))
}
