//! Reading a program file: questions 2 to 14.
//!
//! The tree of items is kept flat: a loop or guard is followed by its items
//! and knows where they end, and forms and nodes stand in rows of their own.
//! So running a program many rounds touches no heap and follows no pointers.

use std::ops::Range;

use crate::limits::{ITEM_NESTING, OPERATOR_NESTING, PROGRAM_BYTES};
use crate::reply::{Question, Refusal};
use crate::tables::{self, Array, Tables};

pub const MARK: [u8; 3] = *b"ALP";

/// Of files in which no operator is marked.
pub const FIRST_VERSION: u16 = 1;
/// Of files in which operators may be marked.
pub const SECOND_VERSION: u16 = 2;

/// The code bytes of a file.
pub mod code {
    pub const END: u8 = 0x00;
    pub const STATEMENT: u8 = 0x01;
    pub const LOOP: u8 = 0x02;
    pub const GUARD: u8 = 0x03;
    pub const READ: u8 = 0x10;
    pub const OPERATOR: u8 = 0x11;
    pub const LITERAL: u8 = 0x12;
    pub const CONSTANT: u8 = 0x13;
}

/// Coefficients of loops that do not enclose the form are 0. They are bytes in
/// the file; sixteen bits here, to be multiplied with indices lane by lane.
#[derive(Clone, Copy, Debug, Default, PartialEq, Eq)]
pub struct Form {
    pub constant: i16,
    pub coefficients: [i16; ITEM_NESTING],
}

/// Places are those of code bytes. Forms and nodes are given by their numbers
/// in the program's rows; an array's subscripts stand one after another.
#[derive(Clone, Debug, PartialEq, Eq)]
pub enum Item {
    /// `behind` is the place behind the expression, `depth` the number of enclosing loops; both
    /// narrow, so that an item takes no more room than a loop needs.
    Statement {
        place: usize,
        behind: u32,
        depth: u8,
        target: usize,
        subscripts: usize,
        nodes: Range<usize>,
    },
    /// `depth` is the number of enclosing loops, `end` the item behind the body.
    Loop {
        place: usize,
        depth: usize,
        start: usize,
        stop: usize,
        step: i16,
        end: usize,
    },
    Guard {
        form: usize,
        end: usize,
    },
}

/// A node of an expression, in prefix order.
#[derive(Clone, Copy, Debug, PartialEq, Eq)]
pub enum Node {
    Read { array: u8, subscripts: u32 },
    Operator { number: u8 },
    Literal { form: u32 },
    Constant { name: u32 },
}

#[derive(Clone, Debug, Default, PartialEq, Eq)]
pub struct Program {
    pub version: u16,
    pub tables: Tables,
    pub items: Vec<Item>,
    pub forms: Vec<Form>,
    pub nodes: Vec<Node>,
}

pub fn read_program(bytes: &[u8]) -> Result<Program, Refusal> {
    let mut reader = Reader::new(bytes)?;
    reader.tables()?;
    reader.items(Scope { loops: 0, nesting: 0 })?;
    Question::FileEnd.ask(reader.place == bytes.len(), reader.place)?;
    Ok(reader.program)
}

/// The tables alone, with the place of the first item.
pub fn read_tables(bytes: &[u8]) -> Result<(Tables, usize), Refusal> {
    let mut reader = Reader::new(bytes)?;
    reader.tables()?;
    Ok((reader.program.tables, reader.place))
}

/// What encloses an item: loops give forms their coefficients, loops and
/// guards together are the nesting.
#[derive(Clone, Copy)]
struct Scope {
    loops: usize,
    nesting: usize,
}

struct Reader<'a> {
    bytes: &'a [u8],
    place: usize,
    program: Program,
}

impl<'a> Reader<'a> {
    fn new(bytes: &'a [u8]) -> Result<Reader<'a>, Refusal> {
        Question::ProgramLength.ask(bytes.len() <= PROGRAM_BYTES, 0)?;
        Ok(Reader { bytes, place: 0, program: Program::default() })
    }

    /// The next field, if it is there as a whole.
    fn field<const WIDTH: usize>(&mut self) -> Result<[u8; WIDTH], Refusal> {
        let field = self.bytes[self.place..].first_chunk::<WIDTH>();
        let field = *field.ok_or(Question::WholeField.at(self.place))?;
        self.place += WIDTH;
        Ok(field)
    }

    fn byte(&mut self) -> Result<u8, Refusal> {
        self.field::<1>().map(|[byte]| byte)
    }

    /// A field of one byte that has a question of its own.
    fn asked_byte(&mut self, question: Question, yes: fn(u32) -> bool) -> Result<u8, Refusal> {
        let place = self.place;
        let byte = self.byte()?;
        question.ask(yes(u32::from(byte)), place)?;
        Ok(byte)
    }

    /// All that comes before the items.
    fn tables(&mut self) -> Result<(), Refusal> {
        self.mark_and_version()?;
        self.operators()?;
        self.arrays()
    }

    fn mark_and_version(&mut self) -> Result<(), Refusal> {
        let place = self.place;
        let mark = self.field()?;
        Question::Mark.ask(mark == MARK, place)?;
        let place = self.place;
        let version = u16::from_le_bytes(self.field()?);
        Question::Version.ask([FIRST_VERSION, SECOND_VERSION].contains(&version), place)?;
        self.program.version = version;
        Ok(())
    }

    fn operators(&mut self) -> Result<(), Refusal> {
        let count = self.asked_byte(Question::OperatorTable, tables::operator_count_allowed)?;
        let allowed = match self.program.version {
            FIRST_VERSION => tables::arity_allowed,
            _ => tables::operator_allowed,
        };
        for _ in 0..count {
            let operator = self.asked_byte(Question::OperatorTable, allowed)?;
            self.program.tables.add_operator(operator);
        }
        Ok(())
    }

    fn arrays(&mut self) -> Result<(), Refusal> {
        let count = self.asked_byte(Question::ArrayTable, tables::array_count_allowed)?;
        for _ in 0..count {
            let place = self.place;
            let array = self.array()?;
            Question::Cells.ask(self.program.tables.add_array(array), place)?;
        }
        Ok(())
    }

    fn array(&mut self) -> Result<Array, Refusal> {
        let place = self.place;
        let role = u32::from(self.byte()?);
        let role = self.program.tables.next_role(role).ok_or(Question::ArrayTable.at(place))?;
        let dimensions = self.asked_byte(Question::ArrayTable, tables::dimensions_allowed)?;
        let mut array = Array { role, dimensions: usize::from(dimensions), extents: [0; 3] };
        for dimension in 0..array.dimensions {
            let place = self.place;
            let extent = u16::from_le_bytes(self.field()?);
            Question::ArrayTable.ask(tables::extent_allowed(u32::from(extent)), place)?;
            array.extents[dimension] = extent;
        }
        Ok(array)
    }

    /// Items up to and with their closing 00.
    fn items(&mut self, scope: Scope) -> Result<(), Refusal> {
        loop {
            let place = self.place;
            match self.byte()? {
                code::END => return Ok(()),
                code::STATEMENT => self.statement(place, scope)?,
                code::LOOP => self.loop_item(place, scope)?,
                code::GUARD => self.guard(place, scope)?,
                _ => return Err(Question::Code.at(place)),
            }
        }
    }

    fn statement(&mut self, place: usize, scope: Scope) -> Result<(), Refusal> {
        let target_place = self.place;
        let target = self.array_number()?;
        let array = self.program.tables.arrays()[target];
        Question::TargetRole.ask(array.role != tables::Role::In, target_place)?;
        let subscripts = self.forms(array.dimensions, scope.loops)?;
        let first = self.program.nodes.len();
        self.expression(scope.loops, 0)?;
        let nodes = first..self.program.nodes.len();
        let (behind, depth) = (self.place as u32, scope.loops as u8);
        self.program.items.push(Item::Statement {
            place,
            behind,
            depth,
            target,
            subscripts,
            nodes,
        });
        Ok(())
    }

    fn loop_item(&mut self, place: usize, scope: Scope) -> Result<(), Refusal> {
        Question::Nesting.ask(scope.nesting < ITEM_NESTING, place)?;
        let depth = scope.loops;
        let start = self.forms(1, depth)?;
        let stop = self.forms(1, depth)?;
        let step_place = self.place;
        let step = i16::from_le_bytes(self.field()?);
        Question::Step.ask(step != 0, step_place)?;
        let own = self.program.items.len();
        self.program.items.push(Item::Loop { place, depth, start, stop, step, end: 0 });
        self.items(Scope { loops: depth + 1, nesting: scope.nesting + 1 })?;
        self.close(own);
        Ok(())
    }

    fn guard(&mut self, place: usize, scope: Scope) -> Result<(), Refusal> {
        Question::Nesting.ask(scope.nesting < ITEM_NESTING, place)?;
        let form = self.forms(1, scope.loops)?;
        let own = self.program.items.len();
        self.program.items.push(Item::Guard { form, end: 0 });
        self.items(Scope { nesting: scope.nesting + 1, ..scope })?;
        self.close(own);
        Ok(())
    }

    /// Notes where the body of a loop or guard ends, now that it is read.
    fn close(&mut self, item: usize) {
        let behind = self.program.items.len();
        if let Item::Loop { end, .. } | Item::Guard { end, .. } = &mut self.program.items[item] {
            *end = behind;
        }
    }

    fn array_number(&mut self) -> Result<usize, Refusal> {
        let place = self.place;
        let number = usize::from(self.byte()?);
        Question::Declared.ask(number < self.program.tables.arrays().len(), place)?;
        Ok(number)
    }

    /// Reads `count` forms and gives the number of the first.
    fn forms(&mut self, count: usize, loops: usize) -> Result<usize, Refusal> {
        let first = self.program.forms.len();
        for _ in 0..count {
            let form = self.form(loops)?;
            self.program.forms.push(form);
        }
        Ok(first)
    }

    fn form(&mut self, loops: usize) -> Result<Form, Refusal> {
        let constant = i16::from_le_bytes(self.field()?);
        let mut coefficients = [0; ITEM_NESTING];
        for coefficient in &mut coefficients[..loops] {
            *coefficient = i16::from(self.byte()? as i8);
        }
        Ok(Form { constant, coefficients })
    }

    /// Reads one expression, which lies within `nesting` operators.
    fn expression(&mut self, loops: usize, nesting: usize) -> Result<(), Refusal> {
        let place = self.place;
        let node = match self.byte()? {
            code::READ => {
                let array = self.array_number()?;
                let dimensions = self.program.tables.arrays()[array].dimensions;
                let subscripts = self.forms(dimensions, loops)? as u32;
                Node::Read { array: array as u8, subscripts }
            }
            code::OPERATOR => {
                Question::Nesting.ask(nesting < OPERATOR_NESTING, place)?;
                return self.operator(loops, nesting + 1);
            }
            code::LITERAL => Node::Literal { form: self.forms(1, loops)? as u32 },
            code::CONSTANT => Node::Constant { name: u32::from_le_bytes(self.field()?) },
            _ => return Err(Question::Code.at(place)),
        };
        self.program.nodes.push(node);
        Ok(())
    }

    /// An operator number and as many arguments as its arity.
    fn operator(&mut self, loops: usize, nesting: usize) -> Result<(), Refusal> {
        let place = self.place;
        let number = self.byte()?;
        let operator = self.program.tables.operators().get(usize::from(number)).copied();
        let operator = operator.ok_or(Question::Declared.at(place))?;
        self.program.nodes.push(Node::Operator { number });
        for _ in 0..tables::arity(operator) {
            self.expression(loops, nesting)?;
        }
        Ok(())
    }
}
