//! The operator table and the array table, as a file or a list holds them.
//!
//! A file and a list are held to the same conditions, so these stand here
//! once; numbers come as `u32`, wide enough for a byte, a field or a word.

use crate::limits::{ARITY, ARRAYS, CELLS, DIMENSIONS, EXTENT, OPERATORS};

#[derive(Clone, Copy, Debug, Default, PartialEq, Eq)]
pub enum Role {
    #[default]
    In,
    Out,
    Inout,
    Local,
}

impl Role {
    pub fn from_number(number: u32) -> Option<Role> {
        match number {
            0 => Some(Role::In),
            1 => Some(Role::Out),
            2 => Some(Role::Inout),
            3 => Some(Role::Local),
            _ => None,
        }
    }

    pub fn number(self) -> u8 {
        self as u8
    }

    /// In and inout arrays start with the same contents on both sides. Out and
    /// local ones have contents of each side's own there, so their cells may be
    /// read only after they are written.
    pub fn starts_alike(self) -> bool {
        matches!(self, Role::In | Role::Inout)
    }

    /// Can a mask say that elements of such arrays are compared?
    pub fn maskable(self) -> bool {
        matches!(self, Role::Out | Role::Inout)
    }
}

/// Extents beyond the dimension count are 0, so that equal arrays are alike.
#[derive(Clone, Copy, Debug, Default, PartialEq, Eq)]
pub struct Array {
    pub role: Role,
    pub dimensions: usize,
    pub extents: [u16; DIMENSIONS],
}

impl Array {
    pub fn extents(&self) -> &[u16] {
        &self.extents[..self.dimensions]
    }

    /// At most 1,024 cubed, hence far from overflow.
    pub fn cells(&self) -> usize {
        self.extents().iter().map(|&extent| usize::from(extent)).product()
    }
}

pub fn operator_count_allowed(count: u32) -> bool {
    count <= OPERATORS as u32
}

/// The byte of an operator of two arguments that may swap: it is marked, and
/// its meanings give the same value for both orders. The byte of every other
/// operator is its arity.
pub const MARKED: u8 = 0x82;

pub fn arity(operator: u8) -> u8 {
    if operator == MARKED {
        2
    } else {
        operator
    }
}

pub fn arity_allowed(arity: u32) -> bool {
    (1..=ARITY as u32).contains(&arity)
}

pub fn operator_allowed(operator: u32) -> bool {
    arity_allowed(operator) || operator == u32::from(MARKED)
}

pub fn array_count_allowed(count: u32) -> bool {
    (1..=ARRAYS as u32).contains(&count)
}

pub fn dimensions_allowed(count: u32) -> bool {
    (1..=DIMENSIONS as u32).contains(&count)
}

pub fn extent_allowed(extent: u32) -> bool {
    (1..=EXTENT as u32).contains(&extent)
}

#[derive(Clone, Debug, Default, PartialEq, Eq)]
pub struct Tables {
    operator_count: usize,
    operators: [u8; OPERATORS],
    array_count: usize,
    arrays: [Array; ARRAYS],
    /// Cells before each array; the entry behind the last is the sum.
    first_cells: [usize; ARRAYS + 1],
}

impl Tables {
    /// The byte of each declared operator.
    pub fn operators(&self) -> &[u8] {
        &self.operators[..self.operator_count]
    }

    pub fn arrays(&self) -> &[Array] {
        &self.arrays[..self.array_count]
    }

    /// The arrays both sides know: locals come last, so these come first.
    pub fn shared(&self) -> &[Array] {
        let shared = self.arrays().iter().take_while(|array| array.role != Role::Local).count();
        &self.arrays[..shared]
    }

    /// Where the cells of an array begin when all cells stand in one row.
    pub fn first_cell(&self, array: usize) -> usize {
        self.first_cells[array]
    }

    pub fn cells(&self) -> usize {
        self.first_cells[self.array_count]
    }

    pub fn add_operator(&mut self, operator: u8) {
        self.operators[self.operator_count] = operator;
        self.operator_count += 1;
    }

    /// The role with this number, if it may stand next: nothing but a local
    /// follows a local.
    pub fn next_role(&self, number: u32) -> Option<Role> {
        let role = Role::from_number(number)?;
        let after_local = self.arrays().last().is_some_and(|array| array.role == Role::Local);
        (role == Role::Local || !after_local).then_some(role)
    }

    /// Adds the array and says whether all cells so far are few enough.
    pub fn add_array(&mut self, array: Array) -> bool {
        let cells = self.cells() + array.cells();
        self.arrays[self.array_count] = array;
        self.array_count += 1;
        self.first_cells[self.array_count] = cells;
        cells <= CELLS
    }
}
