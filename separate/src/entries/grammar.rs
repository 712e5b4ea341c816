//! Parts of a program file at any place, within any loops and over any tables.

use super::fields::{field, i16, i8, index, step, Outcome};
use super::numbers::Tables;
use crate::limits::{ITEM_NESTING, OPERATOR_NESTING};
use crate::read::code;
use crate::reply::{Question, Refusal};

#[derive(Clone, Debug, Default, PartialEq, Eq)]
pub struct Form {
    pub constant: i16,
    pub coefficients: Vec<i8>,
}

/// A constant and a coefficient for each loop.
fn form(loops: usize, s: &[u8], at: usize) -> Outcome<Form> {
    let (constant, mut at) = i16(s, at)?;
    let mut coefficients = Vec::new();
    while coefficients.len() < loops {
        let (coefficient, next) = i8(s, at)?;
        coefficients.push(coefficient);
        at = next;
    }
    Ok((Form { constant, coefficients }, at))
}

/// No file nests deeper, so a step that any caller may make asks this first,
/// at the place where it begins.
fn shallow(depth: u128, at: usize) -> Result<(), Refusal> {
    Question::Nesting.ask(depth <= ITEM_NESTING as u128, at)
}

/// Within any number of loops.
pub fn form_step(loops: usize, s: &[u8], at: usize) -> Outcome<Form> {
    shallow(loops as u128, at)?;
    form(loops, s, at)
}

/// Within any number of loops; of no form too.
pub fn forms_step(loops: usize, count: usize, s: &[u8], at: usize) -> Outcome<()> {
    shallow(loops as u128, at)?;
    forms(loops, count, s, at)
}

/// So many forms in a row.
fn forms(loops: usize, count: usize, s: &[u8], mut at: usize) -> Outcome<()> {
    for _ in 0..count {
        (_, at) = form(loops, s, at)?;
    }
    Ok(((), at))
}

pub struct Grammar<'a> {
    pub s: &'a [u8],
    pub tables: &'a Tables,
}

impl Grammar<'_> {
    /// Within any number of loops.
    pub fn expression_step(&self, at: usize, loops: usize) -> Outcome<usize> {
        shallow(loops as u128, at)?;
        self.expression(at, loops)
    }

    /// The number of an expression's nodes.
    fn expression(&self, at: usize, loops: usize) -> Outcome<usize> {
        self.node(at, loops, OPERATOR_NESTING)
    }

    /// An expression in which operators may nest so deep.
    fn node(&self, at: usize, loops: usize, left: usize) -> Outcome<usize> {
        let (byte, next) = field(1, self.s, at)?;
        match byte as u8 {
            code::READ => {
                let (array, next) = index(self.tables.arrays.len(), self.s, next)?;
                let ((), next) = self.subscripts(array, loops, next)?;
                Ok((1, next))
            }
            code::OPERATOR => {
                Question::Nesting.ask(left > 0, at)?;
                self.operator(next, loops, left - 1)
            }
            code::LITERAL => form(loops, self.s, next).map(|(_, next)| (1, next)),
            code::CONSTANT => field(4, self.s, next).map(|(_, next)| (1, next)),
            _ => Err(Question::Code.at(at)),
        }
    }

    fn operator(&self, at: usize, loops: usize, left: usize) -> Outcome<usize> {
        let (operator, mut at) = index(self.tables.arities.len(), self.s, at)?;
        let mut nodes = 1;
        for _ in 0..self.tables.arities[operator] {
            let (more, next) = self.node(at, loops, left)?;
            nodes += more;
            at = next;
        }
        Ok((nodes, at))
    }

    fn subscripts(&self, array: usize, loops: usize, at: usize) -> Outcome<()> {
        forms(loops, self.tables.array(array).extents.len(), self.s, at)
    }

    /// Items within so many loops, in which loops and guards may nest so deep.
    pub fn items_step(&self, at: usize, left: usize, loops: usize) -> Outcome<()> {
        shallow(loops as u128 + left as u128, at)?;
        self.items(at, left, loops)
    }

    /// Items up to and with their closing 00.
    fn items(&self, mut at: usize, left: usize, loops: usize) -> Outcome<()> {
        loop {
            let (byte, next) = field(1, self.s, at)?;
            ((), at) = match byte as u8 {
                code::END => return Ok(((), next)),
                code::STATEMENT => self.statement(next, loops)?,
                nesting @ (code::LOOP | code::GUARD) => {
                    Question::Nesting.ask(left > 0, at)?;
                    self.nested(nesting, next, left - 1, loops)?
                }
                _ => return Err(Question::Code.at(at)),
            };
        }
    }

    fn statement(&self, at: usize, loops: usize) -> Outcome<()> {
        let (array, next) = index(self.tables.arrays.len(), self.s, at)?;
        Question::TargetRole.ask(self.tables.array(array).role != 0, at)?;
        let ((), at) = self.subscripts(array, loops, next)?;
        self.expression(at, loops).map(|(_, at)| ((), at))
    }

    /// A loop sees its own index only in its items.
    fn nested(&self, nesting: u8, at: usize, left: usize, loops: usize) -> Outcome<()> {
        if nesting == code::GUARD {
            let (_, at) = form(loops, self.s, at)?;
            return self.items(at, left, loops);
        }
        let ((), at) = forms(loops, 2, self.s, at)?;
        let (_, at) = step(self.s, at)?;
        self.items(at, left, loops + 1)
    }
}
