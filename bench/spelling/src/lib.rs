//! Spells texts as rows: a function for each statement and each expression of docs/KERNELS.md.

/// The words of an expression.
#[derive(Clone)]
pub struct Expression(pub Vec<u32>);

/// The words of a statement.
#[derive(Clone)]
pub struct Statement(pub Vec<u32>);

pub fn rows(variables: u32, statement: &Statement) -> Vec<u32> {
    [&[variables], statement.0.as_slice()].concat()
}

pub fn number(number: u32) -> Expression {
    Expression(vec![0, number])
}

pub fn variable(variable: u32) -> Expression {
    Expression(vec![1, variable])
}

pub fn me() -> Expression {
    Expression(vec![2])
}

pub fn all() -> Expression {
    Expression(vec![3])
}

/// Operations are counted as in the table of rows: 0 add, 1 sub, 2 mul, 3 div, 4 rem, 5 less, 6 same.
pub fn operation(operation: u32, first: Expression, second: Expression) -> Expression {
    Expression([&[4, operation], first.0.as_slice(), second.0.as_slice()].concat())
}

pub fn plus(first: Expression, second: Expression) -> Expression {
    operation(0, first, second)
}

pub fn minus(first: Expression, second: Expression) -> Expression {
    operation(1, first, second)
}

pub fn times(first: Expression, second: Expression) -> Expression {
    operation(2, first, second)
}

pub fn over(first: Expression, second: Expression) -> Expression {
    operation(3, first, second)
}

pub fn rem(first: Expression, second: Expression) -> Expression {
    operation(4, first, second)
}

pub fn less(first: Expression, second: Expression) -> Expression {
    operation(5, first, second)
}

pub fn same(first: Expression, second: Expression) -> Expression {
    operation(6, first, second)
}

pub fn nothing() -> Statement {
    Statement(vec![0])
}

pub fn two(first: Statement, second: Statement) -> Statement {
    Statement([&[1], first.0.as_slice(), second.0.as_slice()].concat())
}

/// Statements one after the other, as twos that lean to the right.
pub fn sequence(statements: impl IntoIterator<Item = Statement, IntoIter: DoubleEndedIterator>) -> Statement {
    statements.into_iter().rev().reduce(|rest, statement| two(statement, rest)).unwrap_or_else(nothing)
}

pub fn set(variable: u32, value: Expression) -> Statement {
    Statement([&[2, variable], value.0.as_slice()].concat())
}

pub fn read(variable: u32, place: Expression) -> Statement {
    Statement([&[3, variable], place.0.as_slice()].concat())
}

pub fn write(place: Expression, value: Expression) -> Statement {
    Statement([&[4], place.0.as_slice(), value.0.as_slice()].concat())
}

pub fn add(place: Expression, value: Expression) -> Statement {
    Statement([&[5], place.0.as_slice(), value.0.as_slice()].concat())
}

pub fn if_else(test: Expression, yes: Statement, no: Statement) -> Statement {
    Statement([&[6], test.0.as_slice(), yes.0.as_slice(), no.0.as_slice()].concat())
}

pub fn while_do(test: Expression, body: Statement) -> Statement {
    Statement([&[7], test.0.as_slice(), body.0.as_slice()].concat())
}

pub fn wait() -> Statement {
    Statement(vec![8])
}
