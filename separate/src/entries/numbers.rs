//! Tables as a row of any 115 numbers: the number of operators, 16 of them;
//! the number of arrays, 16 roles, 16 numbers of dimensions, 48 extents; 17
//! bases.

use crate::limits::{ARRAYS, DIMENSIONS, OPERATORS};
use crate::tables;

pub const ROW: usize = 115;
pub type Row = [usize; ROW];

const OPERATOR_BYTES: usize = 1;
const ARRAY_COUNT: usize = OPERATOR_BYTES + OPERATORS;
const ROLES: usize = ARRAY_COUNT + 1;
const DIMENSION_COUNTS: usize = ROLES + ARRAYS;
const EXTENTS: usize = DIMENSION_COUNTS + ARRAYS;
const BASES: usize = EXTENTS + ARRAYS * DIMENSIONS;

/// What the walks of the grammar ask of an array.
#[derive(Clone, Debug, PartialEq, Eq)]
pub struct Array {
    pub role: usize,
    pub extents: Vec<usize>,
}

/// Of any number, also of one that is no operator's.
fn arity(operator: usize) -> usize {
    if operator == usize::from(tables::MARKED) {
        2
    } else {
        operator
    }
}

/// The tables that a row stands for, whatever its numbers are.
pub struct Tables {
    pub arities: Vec<usize>,
    pub arrays: Vec<Array>,
    pub bases: Vec<usize>,
}

impl Tables {
    /// Counts are cut at their limits, extents at 16 bits.
    pub fn of(row: &Row) -> Tables {
        let operators = &row[OPERATOR_BYTES..][..row[0].min(OPERATORS)];
        let arities = operators.iter().map(|&operator| arity(operator)).collect();
        let array = |number: usize| {
            let dimensions = row[DIMENSION_COUNTS + number].min(DIMENSIONS);
            let extents = &row[EXTENTS + DIMENSIONS * number..][..dimensions];
            let extents = extents.iter().map(|&extent| extent.min(usize::from(u16::MAX)));
            Array { role: row[ROLES + number], extents: extents.collect() }
        };
        let arrays = (0..row[ARRAY_COUNT].min(ARRAYS)).map(array).collect();
        Tables { arities, arrays, bases: row[BASES..].to_vec() }
    }

    /// An undeclared array counts as a local without cells.
    pub fn array(&self, number: usize) -> Array {
        let undeclared = || Array { role: 3, extents: vec![0] };
        self.arrays.get(number).cloned().unwrap_or_else(undeclared)
    }
}

/// The row of tables whose fields are as narrow as those of the code.
pub fn narrowed(row: &Row) -> Row {
    std::array::from_fn(|k| match k {
        0 | ARRAY_COUNT | BASES.. => row[k],
        EXTENTS.. => row[k] % 65_536,
        _ => row[k] % 256,
    })
}

/// The row of a file's tables, with zeros for what is not declared.
pub fn flat(tables: &tables::Tables) -> Row {
    let mut row = [0; ROW];
    row[0] = tables.operators().len();
    for (number, &operator) in tables.operators().iter().enumerate() {
        row[OPERATOR_BYTES + number] = usize::from(operator);
    }
    row[ARRAY_COUNT] = tables.arrays().len();
    for (number, array) in tables.arrays().iter().enumerate() {
        row[ROLES + number] = usize::from(array.role.number());
        row[DIMENSION_COUNTS + number] = array.extents().len();
        for (dimension, &extent) in array.extents().iter().enumerate() {
            row[EXTENTS + DIMENSIONS * number + dimension] = usize::from(extent);
        }
        row[BASES + number + 1] = row[BASES + number] + array.cells();
    }
    row
}
