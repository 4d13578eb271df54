//! Texts as trees, and the reader that makes one of rows.

/// Rows have at most so many words.
const MOST_WORDS: usize = 65_536;
/// A text has at most so many variables.
const MOST_VARIABLES: u32 = 256;
/// Statements and expressions stand in one another at most so deep.
const MOST_DEEP: u32 = 256;

pub enum Operation {
    Add,
    Sub,
    Mul,
    Div,
    Rem,
    Less,
    Same,
}

pub enum Expression {
    Number(u32),
    Variable(usize),
    Me,
    All,
    Operation(Operation, Box<Expression>, Box<Expression>),
}

pub enum Statement {
    Nothing,
    Two(Box<Statement>, Box<Statement>),
    Set(usize, Expression),
    Read(usize, Expression),
    Write { place: Expression, value: Expression },
    Add { place: Expression, value: Expression },
    If(Expression, Box<Statement>, Box<Statement>),
    While(Expression, Box<Statement>),
    Wait,
}

pub struct Text {
    pub variables: usize,
    pub statement: Statement,
}

/// The text that the rows say, or none.
pub fn read(rows: &[u32]) -> Option<Text> {
    if rows.len() > MOST_WORDS {
        return None;
    }
    let (&variables, rest) = rows.split_first()?;
    if variables > MOST_VARIABLES {
        return None;
    }
    let mut reader = Reader { variables, rest };
    let statement = reader.statement(MOST_DEEP)?;
    let nothing_left_over = reader.rest.is_empty();
    nothing_left_over.then_some(Text { variables: variables as usize, statement })
}

struct Reader<'r> {
    variables: u32,
    rest: &'r [u32],
}

/// `deep` is how deep what is read may be; it is counted down, so that the reader itself never goes deeper.
impl Reader<'_> {
    fn word(&mut self) -> Option<u32> {
        let (&word, rest) = self.rest.split_first()?;
        self.rest = rest;
        Some(word)
    }

    fn variable(&mut self) -> Option<usize> {
        let variable = self.word()?;
        (variable < self.variables).then_some(variable as usize)
    }

    fn operation(&mut self) -> Option<Operation> {
        Some(match self.word()? {
            0 => Operation::Add,
            1 => Operation::Sub,
            2 => Operation::Mul,
            3 => Operation::Div,
            4 => Operation::Rem,
            5 => Operation::Less,
            6 => Operation::Same,
            _ => return None,
        })
    }

    fn expression(&mut self, deep: u32) -> Option<Expression> {
        let parts = deep.checked_sub(1)?;
        Some(match self.word()? {
            0 => Expression::Number(self.word()?),
            1 => Expression::Variable(self.variable()?),
            2 => Expression::Me,
            3 => Expression::All,
            4 => Expression::Operation(
                self.operation()?,
                Box::new(self.expression(parts)?),
                Box::new(self.expression(parts)?),
            ),
            _ => return None,
        })
    }

    fn statement(&mut self, deep: u32) -> Option<Statement> {
        let parts = deep.checked_sub(1)?;
        Some(match self.word()? {
            0 => Statement::Nothing,
            1 => Statement::Two(self.boxed(parts)?, self.boxed(parts)?),
            2 => Statement::Set(self.variable()?, self.expression(parts)?),
            3 => Statement::Read(self.variable()?, self.expression(parts)?),
            4 => Statement::Write { place: self.expression(parts)?, value: self.expression(parts)? },
            5 => Statement::Add { place: self.expression(parts)?, value: self.expression(parts)? },
            6 => Statement::If(self.expression(parts)?, self.boxed(parts)?, self.boxed(parts)?),
            7 => Statement::While(self.expression(parts)?, self.boxed(parts)?),
            8 => Statement::Wait,
            _ => return None,
        })
    }

    fn boxed(&mut self, deep: u32) -> Option<Box<Statement>> {
        self.statement(deep).map(Box::new)
    }
}

#[cfg(test)]
mod tests {
    use super::read;

    #[test]
    fn the_first_example_is_a_text() {
        assert!(read(&[1, 1, 3, 0, 2, 1, 8, 5, 0, 0, 1, 0]).is_some());
    }

    #[test]
    fn a_word_left_over_makes_no_text() {
        assert!(read(&[0, 0]).is_some());
        assert!(read(&[0, 0, 0]).is_none());
        assert!(read(&[]).is_none());
    }

    #[test]
    fn depth_is_counted_to_256() {
        let nested = |twos: usize| {
            let mut rows = vec![0];
            rows.extend(std::iter::repeat_n([1, 0], twos).flatten());
            rows.push(0);
            rows
        };
        assert!(read(&nested(255)).is_some());
        assert!(read(&nested(256)).is_none());
    }
}
