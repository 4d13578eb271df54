//! Whether rows are a text, and where each statement of it ends.

use crate::codes::*;

const MOST_WORDS: usize = 65_536;
const MOST_VARIABLES: u32 = 256;
const MOST_DEEP: u32 = 256;

/// For the position of each statement, the position behind it; 0 elsewhere. None where the rows are no text.
pub fn ends_of_statements(rows: &[u32]) -> Option<Vec<u32>> {
    let variables = *rows.first()?;
    if rows.len() > MOST_WORDS || variables > MOST_VARIABLES {
        return None;
    }
    let mut reader = Reader { rows, variables, ends: vec![0; rows.len()] };
    let end = reader.statement(1, MOST_DEEP)?;
    (end == rows.len()).then_some(reader.ends)
}

struct Reader<'r> {
    rows: &'r [u32],
    variables: u32,
    ends: Vec<u32>,
}

/// Each function is given the position of a part, and gives the one behind it; `deep` is how deep the part may be.
impl Reader<'_> {
    fn variable(&self, at: usize) -> Option<usize> {
        (*self.rows.get(at)? < self.variables).then_some(at + 1)
    }

    fn expression(&self, at: usize, deep: u32) -> Option<usize> {
        let parts = deep.checked_sub(1)?;
        match *self.rows.get(at)? {
            NUMBER => self.rows.get(at + 1).map(|_| at + 2),
            VARIABLE => self.variable(at + 1),
            ME | ALL => Some(at + 1),
            OPERATION if *self.rows.get(at + 1)? <= LAST_OPERATION => {
                self.expression(self.expression(at + 2, parts)?, parts)
            }
            _ => None,
        }
    }

    fn statement(&mut self, at: usize, deep: u32) -> Option<usize> {
        let parts = deep.checked_sub(1)?;
        let end = match *self.rows.get(at)? {
            NOTHING | WAIT => at + 1,
            TWO => {
                let second = self.statement(at + 1, parts)?;
                self.statement(second, parts)?
            }
            SET | READ => self.expression(self.variable(at + 1)?, parts)?,
            WRITE | ADD => self.expression(self.expression(at + 1, parts)?, parts)?,
            IF => {
                let yes = self.expression(at + 1, parts)?;
                let no = self.statement(yes, parts)?;
                self.statement(no, parts)?
            }
            WHILE => {
                let body = self.expression(at + 1, parts)?;
                self.statement(body, parts)?
            }
            _ => return None,
        };
        self.ends[at] = end as u32;
        Some(end)
    }
}
