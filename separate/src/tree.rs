//! Programs as trees, for the notation and for the generator.
//!
//! Numbers are wider than their fields, so that a rewrite can overshoot and be
//! seen to; `fits` says whether a tree can be encoded as it stands.

use crate::limits::{ARRAYS, CELLS, ITEM_NESTING, OPERATORS, OPERATOR_NESTING};
use crate::read::{self, code, Node, Program};
use crate::tables::{self, Role};

/// One coefficient for each enclosing loop, outermost first.
#[derive(Clone, Debug, PartialEq, Eq)]
pub struct Form {
    pub constant: i32,
    pub coefficients: Vec<i32>,
}

#[derive(Clone, Debug, PartialEq, Eq)]
pub enum Expression {
    Read { array: usize, subscripts: Vec<Form> },
    Operator { number: usize, arguments: Vec<Expression> },
    Literal(Form),
    Constant(u32),
}

#[derive(Clone, Debug, PartialEq, Eq)]
pub struct Statement {
    pub target: usize,
    pub subscripts: Vec<Form>,
    pub value: Expression,
}

#[derive(Clone, Debug, PartialEq, Eq)]
pub struct Loop {
    pub start: Form,
    pub stop: Form,
    pub step: i32,
    pub body: Vec<Item>,
}

#[derive(Clone, Debug, PartialEq, Eq)]
pub struct Guard {
    pub form: Form,
    pub body: Vec<Item>,
}

#[derive(Clone, Debug, PartialEq, Eq)]
pub enum Item {
    Statement(Statement),
    Loop(Loop),
    Guard(Guard),
}

#[derive(Clone, Debug, PartialEq, Eq)]
pub struct Declaration {
    pub role: Role,
    pub extents: Vec<u16>,
}

impl Declaration {
    pub fn cells(&self) -> usize {
        self.extents.iter().map(|&extent| usize::from(extent)).product()
    }
}

#[derive(Clone, Debug, Default, PartialEq, Eq)]
pub struct Source {
    /// Where it is not said it is the one that `least_version` gives.
    pub version: Option<u16>,
    /// The byte of each operator.
    pub operators: Vec<u8>,
    pub arrays: Vec<Declaration>,
    pub items: Vec<Item>,
}

impl Form {
    pub fn number(constant: i32, loops: usize) -> Form {
        Form { constant, coefficients: vec![0; loops] }
    }

    /// The index of the loop at `position` among `loops` enclosing ones.
    pub fn index(position: usize, loops: usize) -> Form {
        let mut form = Form::number(0, loops);
        form.coefficients[position] = 1;
        form
    }

    pub fn is_number(&self) -> bool {
        self.coefficients.iter().all(|&coefficient| coefficient == 0)
    }

    /// Adds `factor` times a form that sees as many loops or fewer.
    pub fn add(&mut self, factor: i32, other: &Form) {
        self.constant += factor * other.constant;
        for (own, coefficient) in self.coefficients.iter_mut().zip(&other.coefficients) {
            *own += factor * coefficient;
        }
    }

    /// Makes room for one more loop, outside the one now at `position`.
    pub fn insert(&mut self, position: usize) {
        self.coefficients.insert(position, 0);
    }

    /// Puts `factor` times the index plus a form of outer loops for the index.
    pub fn replace(&mut self, position: usize, factor: i32, offset: &Form) {
        let coefficient = self.coefficients[position];
        self.coefficients[position] = coefficient * factor;
        self.add(coefficient, offset);
    }

    /// Takes the loop at `position` away, its index being this form.
    pub fn substitute(&mut self, position: usize, value: &Form) {
        let coefficient = self.coefficients.remove(position);
        self.add(coefficient, value);
    }

    fn fits(&self) -> bool {
        i16::try_from(self.constant).is_ok()
            && self.coefficients.iter().all(|&coefficient| i8::try_from(coefficient).is_ok())
    }
}

/// What a form is used for.
#[derive(Clone, Copy, Debug, PartialEq, Eq)]
pub enum Use {
    Subscript,
    Literal,
    Start,
    Stop,
    Guard,
}

impl Expression {
    pub fn each_form(&mut self, visit: &mut dyn FnMut(Use, &mut Form)) {
        match self {
            Expression::Read { subscripts, .. } => {
                subscripts.iter_mut().for_each(|form| visit(Use::Subscript, form));
            }
            Expression::Operator { arguments, .. } => {
                arguments.iter_mut().for_each(|argument| argument.each_form(visit));
            }
            Expression::Literal(form) => visit(Use::Literal, form),
            Expression::Constant(_) => {}
        }
    }

    /// This node, then those below it.
    pub fn each_node(&mut self, visit: &mut dyn FnMut(&mut Expression)) {
        visit(self);
        if let Expression::Operator { arguments, .. } = self {
            arguments.iter_mut().for_each(|argument| argument.each_node(visit));
        }
    }

    fn nesting(&self) -> usize {
        match self {
            Expression::Operator { arguments, .. } => {
                1 + arguments.iter().map(Expression::nesting).max().unwrap_or(0)
            }
            _ => 0,
        }
    }
}

impl Item {
    pub fn body_mut(&mut self) -> Option<&mut Vec<Item>> {
        match self {
            Item::Statement(_) => None,
            Item::Loop(item) => Some(&mut item.body),
            Item::Guard(item) => Some(&mut item.body),
        }
    }

    fn nesting(&self) -> usize {
        let body = match self {
            Item::Statement(_) => return 0,
            Item::Loop(item) => &item.body,
            Item::Guard(item) => &item.body,
        };
        1 + nesting(body)
    }
}

pub fn nesting(items: &[Item]) -> usize {
    items.iter().map(Item::nesting).max().unwrap_or(0)
}

pub fn each_form(items: &mut [Item], visit: &mut dyn FnMut(Use, &mut Form)) {
    for item in items {
        match item {
            Item::Statement(statement) => {
                statement.subscripts.iter_mut().for_each(|form| visit(Use::Subscript, form));
                statement.value.each_form(visit);
            }
            Item::Loop(item) => {
                visit(Use::Start, &mut item.start);
                visit(Use::Stop, &mut item.stop);
                each_form(&mut item.body, visit);
            }
            Item::Guard(item) => {
                visit(Use::Guard, &mut item.form);
                each_form(&mut item.body, visit);
            }
        }
    }
}

pub fn each_statement(items: &mut [Item], visit: &mut dyn FnMut(&mut Statement)) {
    for item in items {
        match item {
            Item::Statement(statement) => visit(statement),
            Item::Loop(item) => each_statement(&mut item.body, visit),
            Item::Guard(item) => each_statement(&mut item.body, visit),
        }
    }
}

pub fn each_node(items: &mut [Item], visit: &mut dyn FnMut(&mut Expression)) {
    each_statement(items, &mut |statement| statement.value.each_node(visit));
}

pub fn each_loop(items: &mut [Item], visit: &mut dyn FnMut(&mut Loop)) {
    for item in items {
        if let Item::Loop(item) = item {
            visit(item);
        }
        if let Some(body) = item.body_mut() {
            each_loop(body, visit);
        }
    }
}

impl Source {
    pub fn cells(&self) -> usize {
        self.arrays.iter().map(Declaration::cells).sum()
    }

    /// The first version that admits the operators.
    pub fn least_version(&self) -> u16 {
        if self.operators.contains(&tables::MARKED) {
            read::SECOND_VERSION
        } else {
            read::FIRST_VERSION
        }
    }

    /// Do all numbers fit their fields, and is nothing too deep or too much?
    pub fn fits(&self) -> bool {
        let mut fits = self.operators.len() <= OPERATORS
            && self.arrays.len() <= ARRAYS
            && self.cells() <= CELLS
            && nesting(&self.items) <= ITEM_NESTING;
        // The visitors lend forms for change, so they look at a copy.
        let mut items = self.items.clone();
        each_form(&mut items, &mut |_, form| fits &= form.fits());
        each_loop(&mut items, &mut |item| fits &= i16::try_from(item.step).is_ok());
        each_statement(&mut items, &mut |statement| {
            fits &= statement.value.nesting() <= OPERATOR_NESTING;
        });
        fits
    }

    /// The tree of a program that was read.
    pub fn of(program: &Program) -> Source {
        let tables = &program.tables;
        let declaration = |array: &tables::Array| Declaration {
            role: array.role,
            extents: array.extents().to_vec(),
        };
        let mut source = Source {
            version: None,
            operators: tables.operators().to_vec(),
            arrays: tables.arrays().iter().map(declaration).collect(),
            items: Grow { program }.items(0, program.items.len(), 0),
        };
        source.version = (program.version != source.least_version()).then_some(program.version);
        source
    }
}

/// Grows trees out of a program's rows.
struct Grow<'a> {
    program: &'a Program,
}

impl Grow<'_> {
    fn items(&self, mut at: usize, end: usize, loops: usize) -> Vec<Item> {
        let mut items = Vec::new();
        while at < end {
            let (item, next) = self.item(at, loops);
            items.push(item);
            at = next;
        }
        items
    }

    /// The item and the number of the one behind it.
    fn item(&self, at: usize, loops: usize) -> (Item, usize) {
        match &self.program.items[at] {
            read::Item::Statement { target, subscripts, nodes, .. } => {
                let subscripts = self.subscripts(*target, *subscripts, loops);
                let mut nodes = self.program.nodes[nodes.clone()].iter();
                let value = self.expression(&mut nodes, loops);
                (Item::Statement(Statement { target: *target, subscripts, value }), at + 1)
            }
            read::Item::Loop { start, stop, step, end, .. } => {
                let start = self.form(*start, loops);
                let stop = self.form(*stop, loops);
                let body = self.items(at + 1, *end, loops + 1);
                (Item::Loop(Loop { start, stop, step: i32::from(*step), body }), *end)
            }
            read::Item::Guard { form, end } => {
                let form = self.form(*form, loops);
                (Item::Guard(Guard { form, body: self.items(at + 1, *end, loops) }), *end)
            }
        }
    }

    fn form(&self, number: usize, loops: usize) -> Form {
        let form = &self.program.forms[number];
        let coefficients = form.coefficients[..loops].iter().map(|&c| i32::from(c)).collect();
        Form { constant: i32::from(form.constant), coefficients }
    }

    fn subscripts(&self, array: usize, first: usize, loops: usize) -> Vec<Form> {
        let dimensions = self.program.tables.arrays()[array].dimensions;
        (first..first + dimensions).map(|number| self.form(number, loops)).collect()
    }

    fn expression(&self, nodes: &mut std::slice::Iter<Node>, loops: usize) -> Expression {
        match *nodes.next().expect("a statement's nodes are one whole expression") {
            Node::Read { array, subscripts } => {
                let array = usize::from(array);
                let subscripts = self.subscripts(array, subscripts as usize, loops);
                Expression::Read { array, subscripts }
            }
            Node::Operator { number } => {
                let number = usize::from(number);
                let arity = tables::arity(self.program.tables.operators()[number]);
                let arguments = (0..arity).map(|_| self.expression(nodes, loops)).collect();
                Expression::Operator { number, arguments }
            }
            Node::Literal { form } => Expression::Literal(self.form(form as usize, loops)),
            Node::Constant { name } => Expression::Constant(name),
        }
    }
}

/// The fields of a file, as far as damage aims at them.
#[derive(Clone, Copy, Debug, PartialEq, Eq)]
pub enum Field {
    /// Noted only where the tree gives it.
    Version,
    OperatorCount,
    Operator,
    ArrayCount,
    Role,
    DimensionCount,
    Extent,
    ItemCode,
    NodeCode,
    Target,
    ReadArray,
    OperatorNumber,
    Step,
}

/// The bytes of a program, and where fields of interest begin.
#[derive(Clone, Debug, Default)]
pub struct Encoded {
    pub bytes: Vec<u8>,
    pub fields: Vec<(Field, usize)>,
}

/// Encodes a tree. What does not fit its field is cut to it.
pub fn encode(source: &Source) -> Encoded {
    let mut encoded = Encoded::default();
    encoded.bytes.extend(read::MARK);
    match source.version {
        Some(version) => encoded.word(Field::Version, version),
        None => encoded.bytes.extend(source.least_version().to_le_bytes()),
    }
    encoded.tables(source);
    encoded.items(&source.items);
    encoded
}

impl Encoded {
    fn byte(&mut self, field: Field, byte: u8) {
        self.fields.push((field, self.bytes.len()));
        self.bytes.push(byte);
    }

    fn word(&mut self, field: Field, word: u16) {
        self.fields.push((field, self.bytes.len()));
        self.bytes.extend(word.to_le_bytes());
    }

    fn tables(&mut self, source: &Source) {
        self.byte(Field::OperatorCount, source.operators.len() as u8);
        for &operator in &source.operators {
            self.byte(Field::Operator, operator);
        }
        self.byte(Field::ArrayCount, source.arrays.len() as u8);
        for array in &source.arrays {
            self.byte(Field::Role, array.role.number());
            self.byte(Field::DimensionCount, array.extents.len() as u8);
            for &extent in &array.extents {
                self.word(Field::Extent, extent);
            }
        }
    }

    fn items(&mut self, items: &[Item]) {
        for item in items {
            self.item(item);
        }
        self.byte(Field::ItemCode, code::END);
    }

    fn item(&mut self, item: &Item) {
        match item {
            Item::Statement(statement) => {
                self.byte(Field::ItemCode, code::STATEMENT);
                self.byte(Field::Target, statement.target as u8);
                self.forms(&statement.subscripts);
                self.expression(&statement.value);
            }
            Item::Loop(item) => {
                self.byte(Field::ItemCode, code::LOOP);
                self.form(&item.start);
                self.form(&item.stop);
                self.word(Field::Step, item.step as u16);
                self.items(&item.body);
            }
            Item::Guard(item) => {
                self.byte(Field::ItemCode, code::GUARD);
                self.form(&item.form);
                self.items(&item.body);
            }
        }
    }

    fn forms(&mut self, forms: &[Form]) {
        forms.iter().for_each(|form| self.form(form));
    }

    fn form(&mut self, form: &Form) {
        self.bytes.extend((form.constant as u16).to_le_bytes());
        self.bytes.extend(form.coefficients.iter().map(|&coefficient| coefficient as u8));
    }

    fn expression(&mut self, expression: &Expression) {
        match expression {
            Expression::Read { array, subscripts } => {
                self.byte(Field::NodeCode, code::READ);
                self.byte(Field::ReadArray, *array as u8);
                self.forms(subscripts);
            }
            Expression::Operator { number, arguments } => {
                self.byte(Field::NodeCode, code::OPERATOR);
                self.byte(Field::OperatorNumber, *number as u8);
                arguments.iter().for_each(|argument| self.expression(argument));
            }
            Expression::Literal(form) => {
                self.byte(Field::NodeCode, code::LITERAL);
                self.form(form);
            }
            Expression::Constant(name) => {
                self.byte(Field::NodeCode, code::CONSTANT);
                self.bytes.extend(name.to_le_bytes());
            }
        }
    }
}
