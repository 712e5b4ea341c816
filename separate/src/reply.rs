//! What an entry answers.

use std::fmt;

/// The questions of docs/QUESTIONS.md, by their numbers.
#[derive(Clone, Copy, Debug, PartialEq, Eq)]
#[repr(u8)]
pub enum Question {
    Framing = 1,
    ProgramLength = 2,
    WholeField = 3,
    Mark = 4,
    Version = 5,
    OperatorTable = 6,
    ArrayTable = 7,
    Cells = 8,
    Code = 9,
    Declared = 10,
    Step = 11,
    Nesting = 12,
    TargetRole = 13,
    FileEnd = 14,
    Bounds = 15,
    Subscript = 16,
    Written = 17,
    Rounds = 18,
    Updates = 19,
    Nodes = 20,
    SameArrays = 22,
    SameOperators = 23,
    Terms = 24,
    Memory = 25,
    List = 26,
    Difference = 27,
    LiteralWidth = 28,
    FileLength = 29,
}

impl Question {
    pub fn at(self, place: usize) -> Refusal {
        Refusal { number: self as u8, place }
    }

    /// Goes on if the answer is yes, refuses with this question otherwise.
    pub fn ask(self, yes: bool, place: usize) -> Result<(), Refusal> {
        if yes {
            Ok(())
        } else {
            Err(self.at(place))
        }
    }
}

/// A "no": the question's number and the place it was asked of.
#[derive(Clone, Copy, Debug, PartialEq, Eq)]
pub struct Refusal {
    pub number: u8,
    pub place: usize,
}

impl Refusal {
    /// The side that is named for a refusal of the program or list on `side`.
    /// Short memory belongs to no side, so 25 is "both".
    pub fn side(self, side: Side) -> Side {
        if self.number == Question::Memory as u8 {
            Side::Both
        } else {
            side
        }
    }

    pub fn reply(self, side: Side) -> Reply {
        Reply::Refused { side: self.side(side), number: self.number, place: self.place }
    }
}

/// Without a side, for messages about one program.
impl fmt::Display for Refusal {
    fn fmt(&self, out: &mut fmt::Formatter) -> fmt::Result {
        write!(out, "refused {} {}", self.number, self.place)
    }
}

#[derive(Clone, Copy, Debug, PartialEq, Eq)]
pub enum Side {
    Left,
    Right,
    Both,
    Input,
}

#[derive(Clone, Copy, Debug, PartialEq, Eq)]
pub enum Reply {
    /// How many elements were compared.
    Equal {
        count: usize,
    },
    /// The first element that differs.
    Differs {
        array: usize,
        cell: usize,
    },
    Refused {
        side: Side,
        number: u8,
        place: usize,
    },
}
